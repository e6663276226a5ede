# From reads to amplicons, one in a line. Samples of which there are both ends are joined; of the others the first end is the amplicon.

rule join_ends:
    input:
        script="workflow/scripts/join.awk",
        first="data/reads/{sample}_1.fastq",
        second="data/reads/{sample}_2.fastq",
    output:
        "amplicons/{sample}.txt",
    params:
        overlap=config["overlap"],
    log:
        "logs/amplicons/{sample}.log",
    shell:
        """
        paste {input.first} {input.second} |
            awk -v overlap={params.overlap} -f {input.script} > {output} 2> {log}
        """


rule one_end:
    input:
        "data/reads/{sample}_1.fastq",
    output:
        "amplicons/{sample}.txt",
    shell:
        "awk 'NR % 4 == 2' {input} > {output}"


ruleorder: join_ends > one_end


rule unique:
    input:
        rules.join_ends.output,
    output:
        "unique/{sample}.txt",
    shell:
        "sort {input} | uniq -c | sort -k1,1nr -k2,2 > {output}"

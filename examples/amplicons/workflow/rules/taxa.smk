# From amplicons to taxa.

rule classify:
    input:
        taxa="data/taxa.tsv",
        unique=rules.unique.output,
    output:
        known="taxa/{sample}.tsv",
        unknown="unknown/{sample}.txt",
    shell:
        """
        awk 'NR == FNR {{ taxon[$2] = $1; next }}
            $2 in taxon {{ print taxon[$2], "{wildcards.sample}", $1 }}' {input} > {output.known}
        awk 'NR == FNR {{ taxon[$2] = $1; next }}
            !($2 in taxon) {{ print $2 }}' {input} > {output.unknown}
        """


rule table:
    input:
        expand(rules.classify.output.known, sample=SAMPLES),
    output:
        "results/taxa.tsv",
    shell:
        "sort {input} > {output}"


# Worth a closer look: what is on no list and comes in more than one sample.
rule unknown:
    input:
        expand(rules.classify.output.unknown, sample=SAMPLES),
    output:
        sequences="results/unknown.txt",
    shell:
        "sort {input} | uniq -d > {output.sequences}"

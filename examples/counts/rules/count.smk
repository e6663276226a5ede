rule count:
    input:
        "data/{text}.txt",
    output:
        "counts/{text}.tsv",
    shell:
        "tr -cs 'A-Za-z' '\\n' < {input} | tr 'A-Z' 'a-z' | sort | uniq -c | awk '{{ print $2, $1 }}' > {output}"

# From a chunk's sheets to its lines, and from all chunks to one table.


# ndigo's status 1 or 2 says that some sheets were refused or not read: the table says which and why, so the job is done. A run that was killed left
# its lines beside the output, and the next one goes on from there.
rule answer:
    input:
        names=f"{RESULTS}/chunks/{{chunk}}.list",
        state=f"{RESULTS}/chunks/{{chunk}}.state",
    output:
        f"{RESULTS}/answers/{{chunk}}.tsv",
    log:
        f"{RESULTS}/logs/answer-{{chunk}}.log",
    params:
        ndigo=config["ndigo"],
        sort="--sort" if config["sort"] else "",
    threads: config["threads"]
    shell:
        "{params.ndigo:q} batch --list {input.names:q} {params.sort} --jobs {threads} --out {output:q} 2> {log:q} || [ $? -le 2 ]"


rule gather:
    input:
        expand(f"{RESULTS}/answers/{{chunk}}.tsv", chunk=CHUNKS),
    output:
        f"{RESULTS}/answers.tsv",
    script:
        "../scripts/gather.py"

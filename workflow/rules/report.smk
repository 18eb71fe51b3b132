# Every table's picture, and the report.


# Each chunk has a folder of its own, and scripts/draw.py says where in it a sheet's picture stands.
rule draw:
    input:
        names=f"{RESULTS}/chunks/{{chunk}}.list",
        state=f"{RESULTS}/chunks/{{chunk}}.state",
        script=f"{SCRIPTS}/draw.py",
    output:
        directory(f"{RESULTS}/pictures/{{chunk}}"),
    log:
        f"{RESULTS}/logs/draw-{{chunk}}.log",
    params:
        ndigo=config["ndigo"],
        sort="--sort" if config["sort"] else "",
    threads: config["threads"]
    shell:
        "RAYON_NUM_THREADS={threads} {sys.executable:q} {input.script:q} --ndigo {params.ndigo:q} {params.sort} --list {input.names:q} --into {output:q} 2> {log:q}"


rule report:
    input:
        tables=expand(f"{RESULTS}/answers/{{chunk}}.tsv", chunk=CHUNKS),
        pictures=expand(f"{RESULTS}/pictures/{{chunk}}", chunk=CHUNKS) if config["pictures"] else [],
        script=f"{SCRIPTS}/report.py",
    output:
        f"{RESULTS}/report.html",
    params:
        pictures="--pictures pictures" if config["pictures"] else "",
    shell:
        "{sys.executable:q} {input.script:q} {params.pictures} --out {output:q} {input.tables:q}"

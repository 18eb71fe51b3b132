"""One table of all chunks' tables: the heading row once, the lines as they are."""


def gathered(tables, out):
    first = None
    with open(out, "wb") as whole:
        for table in tables:
            with open(table, "rb") as lines:
                heading = lines.readline()
                if first is None:
                    first = heading
                    whole.write(heading)
                if heading != first:
                    raise SystemExit(f"{table}: its first line is not that of {tables[0]}; delete the chunk that another edition of ndigo wrote, and start again")
                for line in lines:
                    whole.write(line)


gathered(list(snakemake.input), snakemake.output[0])

"""The table of hosts: Credit2 of 16, 32 and 62 processors beside Xen with one run queue, and with several as a host boots."""
import compare
import machines as made
from figures import beside, distances, waits_of
from rows import ALL, Row

FLOOR = 100                 # microseconds: a lower wait counts as that where two are divided


def row(cores, name, filled, caps=False, pins=False):
    def make(random):
        described = made.host(random, cores, filled, caps)
        return made.pinned(random, described) if pins else described
    return Row(f"{cores} processors, {name}", make)


# The machines, and how many processors a socket has: two sockets but for the host of 62. Unless told otherwise Xen has a run queue for each, of at most 16.
HOSTS = [(row(cores, *kind), socket) for cores, socket in [(16, 8), (32, 16), (62, 62)]
         for kind in [("free", 1.25), ("pinned", 1.25, False, True), ("capped", 1.25, True), ("full", 2)]]


def hosted(job):
    """Of one machine: the distances of xensched's shares to both runs of Xen, and the waits of all and of the lightest domain in all three runs."""
    program, beside, texts, socket = job
    model = compare.Model(program, *texts, ordered=False)
    runs = [model.run, *(compare.Both(model, beside, options).xen for options in (ALL, (f"socket={socket}",)))]
    weights = [domain["weight"] for domain in model.machine["domain"]]
    lightest = weights.index(min(weights))
    shares = [model.shares(run) for run in runs]
    return [distances(shares[0], it) for it in shares[1:]], [run.latencies() for run in runs], [run.latencies(lightest) for run in runs]


def quotients(three):
    """Of each figure Xen's over xensched's, with one queue and as a host boots: above 1 xensched tells too little."""
    for model, *both in zip(*three):
        yield " / ".join(f"{max(xen, FLOOR) / max(model, FLOOR):.2f}" for xen in both)


def hosts(setting):
    seeds = setting.seeds()
    print(f"\n## Hosts\n\nCredit2, {len(seeds)} made machines a row of 0.5 s, one to eight vCPUs a domain, odd weights. Share: |xensched - Xen| / the greater, of each domain, with one queue / as a host "
          "boots. Waits in us, of all and of the lightest domain: `run` / Xen with one queue / Xen as a host boots.\n\n"
          "| Machines | share: mean | greatest | wait: mean | 50 % | 95 % | 99 % | greatest | lightest: mean | 50 % | 95 % | 99 % | greatest |\n" + "|---" * 13 + "|")
    harness = setting.builder.program()
    parts = []
    for made_row, socket in HOSTS:
        if setting.rows not in made_row.name:
            continue
        setting.tell(f"hosts, {made_row.name}")
        found = list(setting.pool.map(hosted, [(setting.program, harness, made_row.machine(seed), socket) for seed in seeds]))
        apart = [[value for it in found for value in it[0][side]] for side in (0, 1)]
        waits = [[[round(value) for value in waits_of(it[place][side] for it in found)] for side in range(3)] for place in (1, 2)]
        shares = [" / ".join(f"{sum(it) / len(it):.4f}" for it in apart), " / ".join(f"{max(it):.3f}" for it in apart)]
        setting.row(made_row.name, *shares, *(cell for three in waits for cell in beside(three)))
        parts.append((made_row.name, *(cell for three in waits for cell in quotients(three))))
    print(f"\nXen's waits as so many times xensched's, with one queue / as a host boots, where less than {FLOOR} us count as {FLOOR}.\n\n"
          "| Machines | wait: mean | 50 % | 95 % | 99 % | greatest | lightest: mean | 50 % | 95 % | 99 % | greatest |\n" + "|---" * 11 + "|")
    for cells in parts:
        setting.row(*cells)

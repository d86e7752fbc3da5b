"""The tables that have figures in place of equality: reservations, shares, weights, caps, and single cases."""
import compare
import machines as made
from rows import ALL, Row
from tables import TOLD

# The most that a row's mean and greatest distance of shares may be: what docs/XEN.md promises.
MEAN, GREATEST = 0.06, 0.60
QUANTILES = .5, .95, .99
# How far the mean and the percentiles of waits may be from Xen's, as a part of the greater, with caps on several cores and else: what docs/XEN.md says.
WAITS, WAITS_OF_CAPS = (.05, .21, .21, .21), (.15, .21, .36, .21)
LEAST = 100                 # microseconds: what two waits are apart is a part of no less than this
LATE = 2000                 # how late Xen's timers may be noticed, in nanoseconds, where its own spread is measured


# ---- reservations ----

RESERVATIONS = [
    (Row("without extra time", lambda r: made.reserved(r, False)), (), True),
    (Row("with extra time", lambda r: made.reserved(r, True)), (), False),
    (Row("with extra time, by deadline, and a unit that is replenished may preempt", lambda r: made.reserved(r, True)),
     ("rtds-replenish", "rtds-extra"), True),
]


def kept(run, vcpu, period, budget):
    """How many whole periods had less than the budget, of how many, and the least part of it."""
    got = [0] * (run.horizon // period)
    for begin, end, _ in run.by_vcpu[vcpu]:
        for number in range(begin // period, min(len(got), -(-end // period))):
            got[number] += min(end, (number + 1) * period) - max(begin, number * period)
    return sum(time < budget for time in got), len(got), min(got) / budget


def reserved(job):
    program, beside, texts = job
    model = compare.Model(program, *texts)
    both = compare.Both(model, beside, ALL)
    return [[kept(run, f"d{number}v0", domain["period_us"] * 1000, domain["budget_us"] * 1000)
             for number, domain in enumerate(model.machine["domain"])] for run in (both.model, both.xen)]


def summed(units_of_all):
    units = [unit for units in units_of_all for unit in units]
    return sum(unit[0] for unit in units), sum(unit[1] for unit in units), min(unit[2] for unit in units)


def reservations(setting):
    seeds = setting.seeds()
    print(f"\n## Reservations\n\nRTDS on one core, guests that always run, reservations that fit, {len(seeds)} made machines a row: in how many "
          "periods a unit had less than its budget, and the least part of its budget that it had.\n\n| Machines | xensched | Xen |\n|---|---|---|")
    for row, changes, are_kept in RESERVATIONS:
        setting.tell(f"reservations, {row.name}")
        beside = setting.builder.program(changes)
        found = list(setting.pool.map(reserved, [(setting.program, beside, row.machine(seed)) for seed in seeds]))
        (missed, periods, least), (xen_missed, xen_periods, xen_least) = (summed(it[side] for it in found) for side in (0, 1))
        print(f"| {row.name} | {missed} of {periods}, {least:.2f} | {xen_missed} of {xen_periods}, {xen_least:.2f} |", flush=True)
        for name, side, some in [("xensched", 0, missed), ("Xen", 1, xen_missed)]:
            if bool(some) != (side == 1 and not are_kept):
                seed = max(seeds, key=lambda seed: sum(unit[0] for unit in found[seed - 1][side]))
                setting.fault(f"reservations, {row.name}: {name} does not keep {some} of {periods} periods", row, seed, changes)


# ---- shares and latencies of Credit2 ----

SHARES = [
    Row("1 core", lambda r: made.credit2(r, 1, milliseconds=5000)),
    Row("2 cores", lambda r: made.credit2(r, 2, milliseconds=5000)),
    Row("4 cores", lambda r: made.credit2(r, 4, milliseconds=5000)),
    Row("8 cores", lambda r: made.credit2(r, 8, milliseconds=5000)),
    Row("4 cores, guests that always run", lambda r: made.credit2(r, 4, busy=1.0, milliseconds=5000)),
    Row("1 core, caps", lambda r: made.credit2(r, 1, True, milliseconds=5000)),
    Row("4 cores, caps", lambda r: made.credit2(r, 4, True, milliseconds=5000)),
    Row("4 cores, pinned units", lambda r: made.pinned(r, made.credit2(r, 4, milliseconds=5000))),
    Row("1 core of two", lambda r: made.of_two(r, made.credit2(r, 1, milliseconds=5000))),
    Row("2 cores of two", lambda r: made.of_two(r, made.credit2(r, 2, milliseconds=5000))),
]


def distances(one, other):
    """How far the shares of each domain lie apart, as a part of the greater."""
    return [abs(a - b) / max(a, b, 0.02) for a, b in zip(one, other)]


def shared(job):
    """Of one machine: distances to Xen, distances of Xen to itself with other lateness, and counts and latencies of both."""
    program, beside, texts, seed = job
    model = compare.Model(program, *texts)
    both = compare.Both(model, beside, ALL)
    late = [compare.Both(model, beside, (*ALL, f"late={LATE}:{number}")).xen for number in (seed, seed + 5000)]
    sides = [both.model, both.xen]
    return (distances(*map(model.shares, sides)), distances(*map(model.shares, late)), model.machine["horizon_ns"] / 1e9,
            [[run.switches(), run.moves(), len(run.resets)] for run in sides], [run.latencies() for run in sides])


def quantile(values, part):
    return sorted(values)[min(len(values) - 1, int(part * len(values)))] / 1000 if values else 0


def waits_of(runs):
    """Mean, percentiles and the greatest of the waits of several runs, in microseconds."""
    values = [value for run in runs for value in run]
    return [sum(values) / max(1, len(values)) / 1000, *(quantile(values, part) for part in QUANTILES), max(values, default=0) / 1000]


def beside(figures):
    """The figures of several sides in one cell each."""
    return [" / ".join(f"{value:.0f}" for value in values) for values in zip(*figures)]


def too_far(one, other, most):
    """The figures of which two sides are further apart than they may be, with that distance."""
    parts = [abs(a - b) / max(a, b, LEAST) for a, b in zip(one, other)]
    return [f"{name} {part:.3f}" for name, part, bound in zip(("mean", "50 %", "95 %", "99 %"), parts, most) if part > bound]


def shares(setting):
    seeds = setting.seeds()
    print(f"\n## Shares and latencies of Credit2\n\n{len(seeds)} made machines a row. Share: |xensched - Xen| / the greater, of each domain. Spread: the same "
          f"of Xen and Xen, where timers are noticed up to {LATE} ns late. Behind it: xensched / Xen.\n\n| Machines | share: mean | greatest | spread: mean | "
          "greatest | switches a second | moves | resets | latency, us: mean | 50 % | 95 % | 99 % |\n" + "|---" * 12 + "|")
    harness = setting.builder.program()
    for row in SHARES:
        setting.tell(f"shares, {row.name}")
        found = list(setting.pool.map(shared, [(setting.program, harness, row.machine(seed), seed) for seed in seeds]))
        apart, spread = ([value for it in found for value in it[place]] for place in (0, 1))
        seconds = sum(it[2] for it in found)
        counts = [f"{sum(it[3][0][what] for it in found) / seconds:.0f} / {sum(it[3][1][what] for it in found) / seconds:.0f}" for what in range(3)]
        waits = [waits_of(it[4][side] for it in found)[:4] for side in (0, 1)]
        mean = sum(apart) / len(apart)
        setting.row(row.name, f"{mean:.4f}", f"{max(apart):.3f}", f"{sum(spread) / len(spread):.4f}", f"{max(spread):.3f}", *counts, *beside(waits))
        if mean > MEAN or max(apart) > GREATEST:
            seed = max(seeds, key=lambda seed: max(found[seed - 1][0]))
            setting.fault(f"shares, {row.name}: mean {mean:.4f} of at most {MEAN}, greatest {max(apart):.3f} of at most {GREATEST}", row, seed)
        told = too_far(*(waits_of(it[4][side] for it in found[:TOLD]) for side in (0, 1)), WAITS_OF_CAPS if row.name == "4 cores, caps" else WAITS)
        if told and len(seeds) >= TOLD:
            setting.fault(f"shares, {row.name}: the waits of {TOLD} machines are further from Xen's than they may be: {', '.join(told)}")


# ---- both forms of the run ----

def spread_out(make, **more):
    """Machines of two to eight cores."""
    return lambda r: make(r, made.credit2(r, r.randrange(2, 9), milliseconds=1000, **more))


def as_made(random, machine):
    return machine


def host(random):
    """A host of 32 cores, with as many domains as a machine may have at most."""
    described = made.credit2(random, 32, milliseconds=200)
    return described | {"domain": described["domain"][:64]}


# The machines, and whether the shares of the default run have to be nearer to Xen's than those of the ordered run.
ORDERS = [
    (Row("mixed", spread_out(as_made)), True),
    (Row("mixed, pinned units", spread_out(made.pinned)), True),
    (Row("mixed, caps", spread_out(as_made, caps=True)), False),
    (Row("mixed, cores of two", spread_out(made.of_two)), True),
    (Row("guests that always run", spread_out(as_made, busy=1.0)), True),
    (Row("guests that always run, pinned units", spread_out(made.pinned, busy=1.0)), True),
    (Row("guests that always run, caps", spread_out(as_made, busy=1.0, caps=True)), False),
    (Row("32 cores", host), False),
    (Row("32 cores, pinned units", lambda r: made.pinned(r, host(r))), False),
]


def in_both_orders(job):
    """Of one machine: for the ordered run, the default run and Xen the distances of shares to Xen, the moves and the waits."""
    program, beside, texts = job
    models = [compare.Model(program, *texts, ordered=ordered) for ordered in (True, False)]
    xen = compare.Both(models[0], beside, ALL).xen
    runs = [*(model.run for model in models), xen]
    return models[0].machine["horizon_ns"] / 1e9, [(distances(models[0].shares(run), models[0].shares(xen)), run.moves(), run.latencies()) for run in runs]


def orders(setting):
    seeds = setting.seeds()
    print(f"\n## The two forms of the run\n\nCredit2, {len(seeds)} made machines a row; unless it says otherwise of two to eight cores. `run --ordered` / `run`, and behind them Xen. "
          "Share: |xensched - Xen| / the greater, of each domain.\n\n"
          "| Machines | share: mean | greatest | moves a second | wait, us: mean | 99 % | greatest |\n" + "|---" * 7 + "|")
    beside = setting.builder.program()
    for row, nearer in ORDERS:
        if setting.rows not in row.name:
            continue
        setting.tell(f"orders, {row.name}")
        found = list(setting.pool.map(in_both_orders, [(setting.program, beside, row.machine(seed)) for seed in seeds]))
        seconds = sum(it[0] for it in found)
        apart, waits = ([[value for it in found for value in it[1][side][place]] for side in range(3)] for place in (0, 2))
        moves = [sum(it[1][side][1] for it in found) / seconds for side in range(3)]
        means = [sum(values) / len(values) for values in apart[:2]]
        print("| " + " | ".join([row.name, " / ".join(f"{it:.4f}" for it in means), " / ".join(f"{max(it):.3f}" for it in apart[:2]), " / ".join(f"{it:.0f}" for it in moves),
                                 " / ".join(f"{sum(it) / max(1, len(it)) / 1000:.0f}" for it in waits), " / ".join(f"{quantile(it, .99):.0f}" for it in waits),
                                 " / ".join(f"{max(it, default=0) / 1000:.0f}" for it in waits)]) + " |", flush=True)
        if means[1] > max(MEAN, means[0]) or max(apart[1]) > max(GREATEST, *apart[0]) or nearer and means[1] > means[0]:
            seed = max(seeds, key=lambda seed: max(found[seed - 1][1][1][0]))
            setting.fault(f"orders, {row.name}: the default run is {means[1]:.4f} from Xen, the ordered one {means[0]:.4f}", row, seed)


# ---- weights and caps alone ----

def one_core(*domains):
    return made.toml(made.machine("credit2", 1, 10000, [{"guests": [[]], **domain} for domain in domains]))


def on_one_core(setting, *domains):
    return compare.Both(compare.Model(setting.program, one_core(*domains)), setting.builder.program(), ALL)


def weights(setting):
    setting.tell("weights")
    print("\n## Weights\n\nTwo guests that always run on one core for 10 s: the part of the lighter one.\n\n| Weights | fair | xensched | Xen |\n|---|---|---|---|")
    for light, heavy in [(256, 512), (256, 1024), (64, 512), (64, 1024), (32, 1024), (16, 4096), (1, 65535)]:
        both = on_one_core(setting, {"weight": light}, {"weight": heavy})
        fair, model, xen = light / (light + heavy), *(run.time["d0v0"] / 1e10 for run in (both.model, both.xen))
        print(f"| {light} to {heavy} | {fair:.4f} | {model:.4f} | {xen:.4f} |")
        if abs(model - fair) > 0.0005 or abs(xen - max(fair, 1 / 21)) > 0.006:
            setting.fault(f"weights {light} to {heavy}: xensched {model:.4f}, Xen {xen:.4f}")


def longest_wait(run):
    stays = run.by_vcpu["d0v0"]
    return max((after[0] - before[1] for before, after in zip(stays, stays[1:])), default=0) / 1e6


def caps(setting):
    setting.tell("caps")
    print("\n## Caps\n\nA capped guest that always runs, alone on one core for 10 s: its part in percent, its stays a second, its longest wait in ms.\n\n"
          "| Cap | xensched | Xen | stays | longest wait |\n|---|---|---|---|---|")
    for cap in [1, 3, 5, 10, 25, 50, 90]:
        both = on_one_core(setting, {"cap": cap})
        sides = [both.model, both.xen]
        parts = [run.time["d0v0"] / 1e8 for run in sides]
        stays, waits = [len(run.by_vcpu["d0v0"]) / 10 for run in sides], [longest_wait(run) for run in sides]
        print(f"| {cap} | {parts[0]:.2f} | {parts[1]:.2f} | {stays[0]:.0f} / {stays[1]:.0f} | {waits[0]:.1f} / {waits[1]:.1f} |")
        if any(abs(part - cap) > 0.05 for part in parts):
            setting.fault(f"caps {cap}: xensched {parts[0]:.2f}, Xen {parts[1]:.2f}")


# ---- single cases ----

def pool(sched, cores, milliseconds, *domains, **more):
    return made.machine(sched, cores, milliseconds, [{"guests": [[]], **domain} for domain in domains], **more)


def rtds(period, budget, extra=True, guests=((),), **more):
    return {"period_us": period, "budget_us": budget, "extratime": extra, "guests": [list(guest) for guest in guests], **more}


# What the case shows, the machine and its work file. On each Xen as it is differs.
CASES = [
    ("two pools of ARINC 653: Xen has one present window for all pools",
     made.pools(pool("arinc653", 1, 60, {}, {}, major_ns=10_000_000, frame=[[0, 0, 4_000_000], [1, 0, 3_000_000]]),
                pool("arinc653", 1, 60, {}, {}, major_ns=7_000_000, frame=[[0, 0, 1_000_000], [1, 0, 2_000_000]])), ""),
    ("a new frame of ARINC 653: Xen begins it when it decides the next time",
     pool("arinc653", 1, 60, {}, {}, major_ns=10_000_000, frame=[[0, 0, 10_000_000]]), "23000000 xl arinc-set Pool-0 10000000 g1:0:10000000\n"),
    ("no frame of ARINC 653: Xen gives each vCPU of domain 0 a window of 10 ms", pool("arinc653", 1, 60, {}, {}), ""),
    ("a late ARINC 653 core: Xen moves its frames",
     pool("arinc653", 1, 60, {}, {}, major_ns=10_000_000, frame=[[0, 0, 4_000_000], [1, 0, 3_000_000]]), "9000000 stall 0 3000000\n"),
    ("RTDS, extra time, 4 of each 10 ms and 15 of each 30 ms are reserved", pool("rtds", 1, 3000, rtds(10000, 4000), rtds(30000, 15000)), ""),
    ("RTDS, a smaller budget while the unit runs over its deadline: Xen's timer stays",
     pool("rtds", 1, 60, rtds(10000, 4000, False, [(1_000_000, 7_000_000, 9_000_000, 1_000_000)])), "9000000 xl sched-rtds -d g0 -b 500\n"),
    ("RTDS, a unit pinned to a busy and an idle core: Xen takes the idle one",
     pool("rtds", 2, 60, rtds(50000, 40000, False, pins=[[0]]), rtds(10000, 5000, False, [(2_000_000, 3_000_000)], pins=[[0, 1]])), ""),
    ("null: Xen gives a unit its own first processor before those that wait", pool("null", 3, 10, {}, {"guests": [[], []]}), ""),
    ("Credit2, the same cap set anew: in Xen it changes nothing", pool("credit2", 1, 60, {"cap": 50}), "23000000 xl sched-credit2 -d g0 -c 50\n"),
    ("Credit2, another cap: in Xen budget and grid stay", pool("credit2", 1, 60, {"cap": 50}), "23000000 xl sched-credit2 -d g0 -c 20\n"),
    ("Credit2, a cap above 100 for each unit: Xen refuses it", pool("credit2", 1, 60, {}), "23000000 xl sched-credit2 -d g0 -c 150\n"),
    ("Credit2, one of two siblings sleeps: Xen decides anew",
     pool("credit2", 2, 60, {"guests": [[], [700_000, 300_000]]}, {}) | {"granularity": 2}, ""),
    ("Credit2, three equal guests and two heavier ones on four cores: all cores of a moment decide before one saves",
     pool("credit2", 4, 2000, {"weight": 128, "guests": [[], []]}, {"guests": [[], []]}, {"weight": 128}), ""),
]


def parts_of(both, run):
    return ", ".join(f"{run.time[vcpu] / both.of.machine['horizon_ns']:.3f}" for vcpu in sorted({*both.model.by_vcpu, *both.xen.by_vcpu}))


def cases(setting):
    setting.tell("cases")
    print("\n## Single cases\n\nThe parts of the vCPUs in order, and the first moment at which the two differ.\n\n"
          "| Case | xensched | Xen | first difference |\n|---|---|---|---|")
    beside = setting.builder.program()
    for name, machine, work in CASES:
        both = compare.Both(compare.Model(setting.program, made.toml(machine), work), beside, ALL)
        found = both.first_difference()
        where = (f"{found[0]}, {found[1]}" if found else f"answers {both.model.answers[0]} / {both.xen.answers[0]}" if both.model.answers != both.xen.answers
                 else "none" if both.is_equal() else "in which core")
        print(f"| {name} | {parts_of(both, both.model)} | {parts_of(both, both.xen)} | {where} |")
        if where == "none":
            setting.fault(f"case {name}: does not differ, and was to")

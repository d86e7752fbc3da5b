"""The table of timers: what the slop of Xen's timers, by Xen's own timer.c, does to the rows that are equal without it."""
import compare
import figures
import machines as made
import rows as table_rows
from rows import ALL

DEFAULT = 50_000            # Xen's own timer_slop, in nanoseconds
NEVER_LATE, AS_ON_A_HOST = "slop=0", f"slop={DEFAULT}"
NAMES = ["ARINC 653, 1 core", "ARINC 653, 1 core of two", "ARINC 653, pause", "null, vCPUs started one after the other", "null, cores of two, one after the other",
         "RTDS, 1 core, no extra time", "RTDS, 4 cores, no extra time", "RTDS, 1 core of two", "RTDS, 1 core, pause", "RTDS, 4 cores, pause"]
SHARE = 0.15                # the most that docs/XEN.md says: how far the shares of a domain lie apart

# b is replenished at 13.99 ms and takes no core from a. The clock is set next for 14.04 ms, so a runs 4.04 ms of its 4.
SMALLEST = made.machine("rtds", 1, 30, [{"guests": [[]], "period_us": period, "budget_us": budget, "extratime": False} for period, budget in [(10_000, 4_000), (13_990, 1_000)]])


def time_apart(one, other):
    """How long a vCPU runs in one run and not in the other, summed over the vCPUs."""
    total, one, other = 0, one.whole_stays(), other.whole_stays()
    for vcpu in {*one, *other}:
        both = one.get(vcpu, []), other.get(vcpu, [])
        shared = sum(max(0, min(a[1], b[1]) - max(a[0], b[0])) for a, b in overlapping(*both))
        total += sum(end - begin for stays in both for begin, end in stays) - 2 * shared
    return total


def overlapping(one, other):
    """The pairs of stays of two sorted lists that may have time in common."""
    place = 0
    for stay in one:
        while place < len(other) and other[place][1] <= stay[0]:
            place += 1
        for it in other[place:]:
            if it[0] >= stay[1]:
                break
            yield stay, it


def late(job):
    """One machine: whether timer.c without slop makes the log of the harness's own timers, and how far Xen's default is from the model."""
    program, beside, texts, own = job
    model = compare.Model(program, *texts)
    exact, never, both = (compare.Both(model, beside, (*ALL, *own, *words)) for words in ((), (NEVER_LATE,), (AS_ON_A_HOST,)))
    shares = figures.distances(*map(model.shares, (both.model, both.xen)))
    return exact.text == never.text, both.is_equal(), both.is_equal_by_vcpu(), max(shares), time_apart(both.model, both.xen) / both.model.horizon


def kept(job):
    """The reservations of one machine, by Xen with its default slop."""
    program, beside, texts = job
    model = compare.Model(program, *texts)
    run = compare.Both(model, beside, (*ALL, AS_ON_A_HOST)).xen
    return [figures.kept(run, f"d{number}v0", domain["period_us"] * 1000, domain["budget_us"] * 1000) for number, domain in enumerate(model.machine["domain"])]


def slop(setting):
    seeds, named, beside = setting.seeds(), {row.name: row for row in table_rows.EQUALITY}, setting.builder.program()
    print(f"\n## Timers\n\nXen as it is with its own timers, by timer.c, {len(seeds)} made machines a row. On how many its log without slop is that of timers that are never late, byte for byte; "
          f"and beside xensched with Xen's default slop of {DEFAULT // 1000} us: share as in the table of shares, and in how many percent of the time a vCPU runs for one and not for the other.\n\n"
          "| Machines | no slop: the same log | default: equal | by vCPU | share: greatest | apart, %: mean | greatest |\n" + "|---" * 7 + "|")
    for name in NAMES:
        if setting.rows not in name:
            continue
        setting.tell(f"slop, {name}")
        row = named[name]
        found = list(setting.pool.map(late, [(setting.program, beside, row.machine(seed), row.own) for seed in seeds]))
        same, equal, by_vcpu, shares, apart = zip(*found)
        setting.row(name, str(sum(same)), str(sum(equal)), str(sum(by_vcpu)), f"{max(shares):.4f}", f"{100 * sum(apart) / len(apart):.3f}", f"{100 * max(apart):.2f}")
        if not all(same):
            setting.fault(f"slop, {name}: without slop timer.c makes another log", row, same.index(False) + 1, (), (NEVER_LATE,))
        if max(shares) > SHARE or name.startswith("null") and not all(equal):
            setting.fault(f"slop, {name}: {sum(equal)} equal, shares {max(shares):.4f} of at most {SHARE}", row, shares.index(max(shares)) + 1, (), (AS_ON_A_HOST,))
    if not setting.rows:
        reservations(setting, beside)
        smallest(setting, beside)


def reservations(setting, beside):
    row, _, _ = figures.RESERVATIONS[0]
    setting.tell(f"slop, reservations {row.name}")
    missed, periods, least = figures.summed(setting.pool.map(kept, [(setting.program, beside, row.machine(seed)) for seed in setting.seeds()]))
    print(f"\nReservations {row.name}, with the default slop: {missed} of {periods} periods had less than the budget, and the least part of a budget was {least:.2f}.")
    if missed:
        setting.fault(f"slop, reservations {row.name}: {missed} of {periods} periods had less than the budget")


def smallest(setting, beside):
    model = compare.Model(setting.program, made.toml(SMALLEST))
    exact, both = (compare.Both(model, beside, (*ALL, words)) for words in (NEVER_LATE, AS_ON_A_HOST))
    found = both.first_difference()
    print(f"\nThe smallest machine, two guests with 4 of 10 ms and 1 of 13.99 ms: {f'they differ first at {found[0]} ns, vCPU {found[1]}' if found else 'they do not differ'}.")
    if not exact.is_equal() or not found:
        setting.fault("slop, the smallest machine: it is to be equal without slop, and to differ with Xen's default")

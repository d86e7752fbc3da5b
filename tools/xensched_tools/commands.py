"""What an accepted command changes of the machine that a schedule is followed on."""
from .machine import DEFAULTS, Pool, options_of
from .words import Refused


def domain_of(run, which):
    """The domain with this name or number."""
    found = next((domain for domain in run.domain_list if domain.name == which), None)
    return found or run.domain_list[int(which)]


def home_of(run, which):
    """The pool with this name or number."""
    found = next((home for home in run.pools.values() if home.name == which), None)
    return found or run.home(int(which))


def setting(domain, key):
    """The present value of a key of a domain's scheduler."""
    default = DEFAULTS[key]
    if key == "budget_us":
        default = min(default, setting(domain, "period_us"))
    return domain.settings.get(key, default)


def create(run, given, rest):
    """A new pool has the lowest free number of the 16."""
    run.make_pool(next(i for i in range(16) if i not in run.pools), Pool(given["name"], given.get("sched", "credit2")))


def destroy(run, given, rest):
    run.pools.pop(home_of(run, rest[0]).index)


def rename(run, given, rest):
    home_of(run, rest[0]).name = rest[1]


def credit2(run, given, rest):
    if "-s" in given:
        if "-r" in given:
            home_of(run, given["-p"]).settings["ratelimit_us"] = int(given["-r"])
        return
    domain = domain_of(run, given["-d"])
    change(domain, given, {"-w": "weight", "-c": "cap"})
    if "-c" in given:
        run.cap_set(domain)


def rtds(run, given, rest):
    """Parameters of one vCPU alone are not kept: what a unit has in each period its line `repl` says."""
    if given.get("-v", "all") == "all":
        domain = domain_of(run, given["-d"])
        change(domain, given, {"-p": "period_us", "-b": "budget_us"})
        if "-e" in given:
            domain.settings["extratime"] = given["-e"] == "1"


def change(domain, given, keys):
    """The domain's settings that these options give."""
    for option, key in keys.items():
        if option in given:
            domain.settings[key] = int(given[option])
            domain.changed = True


def pause(run, given, rest):
    run.set_paused(domain_of(run, rest[0]), True)


def unpause(run, given, rest):
    run.set_paused(domain_of(run, rest[0]), False)


def arinc_set(run, given, rest):
    """A new frame, which begins at the moment of the command."""
    frame = []
    for entry in rest[2].split(","):
        domain, unit, span = entry.split(":")
        frame.append([domain_of(run, domain).index, int(unit), int(span)])
    home_of(run, rest[0]).settings.update(major_ns=int(rest[1]), frame=frame)
    run.frame_set(home_of(run, rest[0]))


EFFECTS = {"cpupool-create": create, "cpupool-destroy": destroy, "cpupool-rename": rename, "sched-credit2": credit2, "sched-rtds": rtds,
           "pause": pause, "unpause": unpause, "arinc-set": arinc_set}


def carry_out(run, words):
    """Does what the accepted command does at once; what moves has lines of its own."""
    effect = EFFECTS.get(words[0])
    try:
        if effect:
            effect(run, *options_of(words))
    except (IndexError, KeyError, ValueError, StopIteration):
        raise Refused(f"the command `{' '.join(words)}` cannot have been done: is the work file that of the run?") from None

"""What the laws promise each unit at least, and what it had, summed up while a schedule is followed. docs/MEASURES.md says what each column means."""
from fractions import Fraction

from .commands import setting

# In place of a law, where none is proved and no run was found that breaks the promise.
SEEN = "no law, never seen to fail"
# The longest slice of Credit2 under a rate limit that is not longer.
LONGEST_SLICE = 10_000_000


class Claim:
    """What a unit has a claim to in a pool, nanosecond by nanosecond."""

    __slots__ = ("claimed", "asleep", "unusable", "promised", "had", "owed", "owed_at")

    def __init__(self):
        self.claimed = self.asleep = self.unusable = self.promised = self.had = self.owed = 0
        self.owed_at = None

    def pass_time(self, begin, end, is_ready, usable_from, has_core):
        """From begin to end the unit has a claim to the core. Where it is ready to run and the core may be used, it has to have it."""
        span = end - begin
        self.claimed += span
        if has_core:
            self.had += span
        if not is_ready:
            self.asleep += span
            return
        unusable = max(0, min(end, usable_from) - begin)
        self.unusable += unusable
        self.promised += span - unusable
        if not has_core and unusable < span:
            self.owe(span - unusable, begin + unusable)

    def take(self, promised, had, at):
        """It was promised so much, and had so much by this moment."""
        self.claimed += promised
        self.promised += promised
        self.had += had
        if had < promised:
            self.owe(promised - had, at)

    def owe(self, span, at):
        self.owed += span
        if self.owed_at is None:
            self.owed_at = at


class Promises:
    """The claims of all units of a followed schedule; `study` is the one that follows it."""

    def __init__(self, study):
        self.study = study
        # By unit and the number of a pool.
        self.claims = {}
        # Until when some processor of the core stalls, and the cores and domains under way to elsewhere.
        self.stalled_until, self.leaving, self.moving = {}, set(), set()
        # Null: the unit that a core is given to. Units that a command has pinned anew since.
        self.given, self.pinned = {}, set()
        # ARINC 653: up to when the present window of a frame is counted.
        self.counted_to = {frame: study.now for frame in study.frames}
        self.has_stalls, self.has_commands = False, bool(study.work)
        self.begun_with = [(home, list(home.domains), set(home.cores)) for home in study.pools.values()]
        self.lags = {unit: 0 for unit in study.units.values()}

    def claim(self, unit, home):
        return self.claims.setdefault((unit, home.index), Claim())

    # what is told

    def time_passes(self, begin, end):
        """Nothing comes between these moments."""
        if begin == end:
            return
        for core, unit in self.given.items():
            if core.home is unit.domain.home:
                self._claims_core(unit, core, begin, end)
        self._lag(end)

    def window_passes(self, frame, end):
        """Up to this moment the frame's present window goes on."""
        begin = self.counted_to.get(frame, end)
        self.counted_to[frame] = end
        if frame.present is None or begin >= end or frame.present.unit.domain.home is not frame.home:
            return
        unit, core = frame.present.unit, next(iter(frame.home.cores), None)
        if core is None:
            self.claim(unit, frame.home).pass_time(begin, end, self._is_ready(unit), end, False)
        else:
            self._claims_core(unit, core, begin, end)

    def frames_pass(self, frame, times):
        """Of so many whole frames in which nothing changes it counts those up to the one in which a stall ends, at once, and answers how many."""
        begin, core = frame.start, next(iter(frame.home.cores), None)
        usable_from = 0 if core is None or core in self.leaving else self.stalled_until.get(core, 0)
        if begin < usable_from < begin + times * frame.major:
            times = (usable_from - begin) // frame.major
        for window in frame.windows if times else []:
            if window.unit.domain.home is frame.home:
                is_usable = core is not None and core not in self.leaving and usable_from <= begin
                claim, end = self.claim(window.unit, frame.home), begin + times * window.length
                claim.pass_time(begin, end, self._is_ready(window.unit), 0 if is_usable else end, core is not None and core.unit is window.unit)
        self.counted_to[frame] = begin + times * frame.major
        return times

    def _claims_core(self, unit, core, begin, end):
        usable_from = end if core in self.leaving else self.stalled_until.get(core, 0)
        self.claim(unit, core.home).pass_time(begin, end, self._is_ready(unit), usable_from, core.unit is unit)

    def _is_ready(self, unit):
        return unit.awake > 0 and not unit.domain.paused and unit.domain not in self.moving

    def stalled(self, processor, until):
        self.has_stalls = True
        self.stalled_until[processor.core] = max(until, self.stalled_until.get(processor.core, 0))

    def decided(self, core, unit):
        """A null pool gives the core to the unit that it decides for; a core that leaves is given to none."""
        if core.home is None or core.home.sched != "null":
            return
        if unit is not None:
            self.given = {other: its for other, its in self.given.items() if its is not unit}
            self.given[core] = unit
        elif core in self.leaving:
            self.given.pop(core, None)

    def joined(self, subject):
        """A core or a domain is elsewhere from now on."""
        self.leaving.discard(subject)
        self.moving.discard(subject)
        self.given = {core: unit for core, unit in self.given.items() if core is not subject and unit.domain is not subject}

    def core_leaves(self, core):
        """A command sends the core elsewhere."""
        self.leaving.add(core)

    def domain_moves(self, domain):
        """A command sends the domain to another pool."""
        self.moving.add(domain)

    def pins(self, domain):
        """A command pins vCPUs of the domain: what a null pool gave its units is no longer known."""
        self.pinned.add(domain)
        self.given = {core: unit for core, unit in self.given.items() if unit.domain is not domain}

    def term_over(self, unit, term, ran, at):
        """A term of an RTDS unit is over."""
        if not self.has_stalls and not self.has_commands:
            self.claim(unit, unit.domain.home).take(term.budget, ran, at)

    def _lag(self, at):
        """Credit2: by how much each unit is behind its share at most."""
        if self.has_stalls or self.has_commands:
            return
        for home, domains, cores in self.begun_with:
            if home.sched == "credit2" and len(cores) == 1:
                weights = sum(setting(domain, "weight") * len(domain.units) for domain in domains)
                for domain in domains:
                    for unit in domain.units:
                        lag = setting(domain, "weight") * at - weights * unit.ran_by(at)
                        if lag > self.lags[unit]:
                            self.lags[unit] = lag

    # what came of it

    def rows(self):
        """For each unit and each pool that it was in: the promise, by which law or why there is none, and the times."""
        for domain in self.study.domain_list:
            for unit in domain.units:
                homes = {visit.home.index: visit for visit in self.study.visits if visit.domain is domain}
                for index, visit in homes.items():
                    promise, law = PROMISES.get(visit.home.sched, unknown)(self, unit, visit.home)
                    if any(vcpu.script is None for vcpu in self.study.vcpus.values()):
                        law = "the schedule is that of a host"
                    yield unit, visit, promise, law, self.claims.get((unit, index))

    def faults(self, also_seen=False):
        """A sentence for each unit that had less than a law promises it; if that is asked, also less than what was never seen to fail."""
        for unit, visit, promise, law, claim in self.rows():
            if is_kept(law, also_seen) and claim is not None and claim.owed:
                yield f"{unit.name} had {claim.owed} ns less than {law} promises it in {visit.name} ({promise}), first at {claim.owed_at}"


def is_kept(law, also_seen=True):
    """Whether the words name a law, and no reason why nothing is promised."""
    return law.startswith("law_") or also_seen and law == SEEN


def never_sleeps(study, unit):
    """Some vCPU of it runs for ever."""
    return any(vcpu.script == [] for vcpu in unit.domain.vcpus if vcpu.unit is unit)


def disturbed(promises, home):
    """Why a promise to those who share a core cannot be given, whatever the scheduler."""
    begun = next((cores for pool, _, cores in promises.begun_with if pool is home), set())
    if len(begun) != 1:
        yield f"{len(begun)} cores"
    if promises.has_stalls:
        yield "stalls"
    if promises.has_commands:
        yield "commands"


def windows_of(promises, unit, home):
    """ARINC 653: at each moment of its windows the core, where that may be used, and the unit may run."""
    frames = [frame for frame in home.tally.frames if any(window.unit is unit for window in frame.windows)]
    if not frames:
        return "none", "no window"
    frame = frames[-1]
    spans = sum(window.length for window in frame.windows if window.unit is unit)
    return f"windows of {spans} of each {frame.major} ns", "law_windows_kept"


def own_core(promises, unit, home):
    """Null: the core that it was given, for good."""
    core = next((core for core, its in promises.given.items() if its is unit), None)
    if core is not None:
        return f"core {core.index} alone", "law_given_runs"
    if (unit, home.index) in promises.claims:
        return "a core alone, for as long as it was given one", "law_given_runs"
    return "none", "pinned by a command" if unit.domain in promises.pinned else "no core was free for it"


def budgets_of(promises, unit, home):
    """RTDS: the budget of each term, on one core whose guests never sleep and whose reservations fit it."""
    domains, cores = next(((domains, cores) for pool, domains, cores in promises.begun_with if pool is home), ([], set()))
    period, budget = (setting(unit.domain, key) for key in ("period_us", "budget_us"))
    reasons = list(disturbed(promises, home))
    reservations = Reservations(promises.study, domains)
    if reservations.sleepers:
        reasons.append("guests that sleep")
    if reservations.sum > max(1, len(cores)):
        reasons.append(f"{float(reservations.sum):.6g} cores reserved")
    by = ", ".join(reasons) or "law_reservations"
    if reasons == ["guests that sleep"] and reservations.fit_beside_sleepers(unit):
        by = "law_reservations_beside_sleepers"
    if reasons == [f"{len(cores)} cores"] and len(cores) > 1 and reservations.fit_cores(len(cores)):
        by = SEEN
    return f"{budget} us of each {period} us", by


class Reservations:
    """The reservations of the units of some domains; times in microseconds."""

    def __init__(self, study, domains):
        self.study, self.units = study, [unit for domain in domains for unit in domain.units]
        self.parts = {unit: Fraction(setting(unit.domain, "budget_us"), setting(unit.domain, "period_us")) for unit in self.units}
        self.sum = sum(self.parts.values(), Fraction(0))
        self.sleepers = [unit for unit in self.units if not never_sleeps(study, unit)]

    def fit_beside_sleepers(self, unit):
        """Whether the unit never sleeps, and its period has time for what sleepers may ask for at once, since they keep their budgets while they sleep. Then so
        has each longer span, which is what the law asks for."""
        at_once = sum(setting(it.domain, "budget_us") * (1 - self.parts[it]) for it in self.sleepers)
        return unit not in self.sleepers and at_once <= setting(unit.domain, "period_us") * (1 - self.sum)

    def fit_cores(self, cores):
        """Whether no unit is pinned, and the reservations leave as much as the greatest of them on all cores but one."""
        pinned = any(self.study.machine.domains[unit.domain.index].pins for unit in self.units)
        return not pinned and self.sum <= cores - (cores - 1) * max(self.parts.values(), default=0)


def share_of(promises, unit, home):
    """Credit2: its share of the time, but for one longest slice behind each other unit, on one core without caps, if it never sleeps."""
    domains = next((domains for pool, domains, _ in promises.begun_with if pool is home), [])
    weights = sum(setting(domain, "weight") * len(domain.units) for domain in domains)
    weight, others = setting(unit.domain, "weight"), sum(len(domain.units) for domain in domains) - 1
    longest = max(LONGEST_SLICE, 1000 * home.settings.get("ratelimit_us", 1000)) + 1
    reasons = list(disturbed(promises, home))
    if any(setting(domain, "cap") for domain in domains):
        reasons.append("caps")
    sleepers = [other for domain in domains for other in domain.units if not never_sleeps(promises.study, other)]
    if unit in sleepers:
        reasons.append("it sleeps")
    elif sleepers and promises.study.machine.granularity > 1 and home.settings.get("ratelimit_us", 1000):
        reasons.append("guests that sleep on a core of several processors")
    if not reasons:
        end = promises.study.end
        claim = promises.claims[unit, home.index] = Claim()
        claim.claimed, claim.had = Fraction(weight * end, weights), unit.ran_by(end)
        claim.promised = max(0, claim.claimed - Fraction(weight * others * longest, weights))
        over = promises.lags[unit] - weight * others * longest
        if over > 0:
            claim.owe(-(-over // weights), end)
    return f"{weight} of {weights} of the time, less {others} slices", ", ".join(reasons) or "law_shares"


def unknown(promises, unit, home):
    return "none", "no file says which scheduler"


PROMISES = {"arinc653": windows_of, "null": own_core, "rtds": budgets_of, "credit2": share_of}

"""What `--deadline`, `--latency` and `--share` ask of a study, and whether it was kept."""
from .measures import Limit, capacity_of, since_release
from .schedule import SLEEPS
from .words import Refused, milliseconds, percent, time_of


def add_part(given):
    """The words of a tool that name the part of the run that is counted."""
    given.add_argument("--from", dest="begin", metavar="TIME", default="0", help="count from this moment on, as 100ms")
    given.add_argument("--to", dest="until", metavar="TIME", help="count up to this moment")
    given.add_argument("--warmup", metavar="TIME", default="0", help="leave out so much at the beginning of what is counted")


def part_words(given):
    """The same words again, for another call."""
    return ["--from", given.begin, "--warmup", given.warmup, *(["--to", given.until] if given.until else [])]


def is_part(given):
    """Whether a part alone was asked for."""
    return given.until is not None or time_of(given.begin) + time_of(given.warmup) > 0


def take_part(study, given):
    """Has the study count what the words name, before its first line."""
    study.count_part(time_of(given.begin) + time_of(given.warmup), None if given.until is None else time_of(given.until))


def add_limits(given):
    """The words of a tool that ask for something to be kept."""
    given.add_argument("--deadline", action="append", default=[], metavar="WHO=TIME", help="each job of WHO (a domain's name, dD or dDvV) is to end within TIME of its release, as web=2ms")
    given.add_argument("--latency", action="append", default=[], metavar="WHO=TIME", help="each wait of WHO is to be at most TIME")
    given.add_argument("--share", action="append", default=[], metavar="DOMAIN=PERCENT", help="the domain is to have at least this share of its pool, as web=40%%")


def limit_words(given):
    """The same words again, for another call."""
    return [word for kind in ("deadline", "latency", "share") for text in getattr(given, kind) for word in (f"--{kind}", text)]


class Targets:
    """The limits that were asked for, of one run: told to a study before its first line, and judged behind its last."""

    def __init__(self, study, deadlines, latencies, shares):
        self.study, self.limits, self.shares = study, limits_of(study, deadlines, latencies), shares_of(study, shares)

    def judge(self):
        """Behind the last line: what is open still and already too long has missed its limit."""
        judge_open(self.study, self.limits)
        return self

    def had(self, domain):
        """The share of its pool that a domain had."""
        return sum(self.study.ran(unit) for unit in domain.units) / (capacity_of(self.study, domain) or 1)

    @property
    def met(self):
        """How many waits, jobs and shares were as asked."""
        return sum(limit.met for limit in self.limits) + sum(self.had(domain) >= least for domain, least in self.shares)

    @property
    def missed(self):
        return sum(limit.missed for limit in self.limits) + sum(self.had(domain) < least for domain, least in self.shares)

    @property
    def worst(self):
        """How much of what is allowed was taken where it was most: above 1 it is missed. The longest wait or job to its limit, the share asked to that had."""
        parts = [limit.most / limit.span if limit.span else float(limit.most > 0) * 2 for limit in self.limits]
        parts += [least / self.had(domain) if self.had(domain) else float("inf") if least else 0.0 for domain, least in self.shares]
        return max(parts, default=0.0)


def vcpus_of(study, who):
    """The vCPUs of `web`, `d0` or `d0v1`."""
    if who in study.vcpus:
        return [study.vcpus[who]]
    return domain_of(study, who).vcpus


def domain_of(study, who):
    """The domain of `web` or `d0`."""
    found = next((domain for domain in study.domain_list if who in (domain.name, f"d{domain.index}")), None)
    if found is None:
        raise Refused(f"there is no domain or vCPU {who!r}; the domains are {', '.join(domain.name for domain in study.domain_list)}")
    return found


def parted(text):
    """The two sides of `WHO=VALUE`."""
    who, equals, value = text.partition("=")
    if not equals:
        raise Refused(f"{text!r} is not of the form WHO=VALUE")
    return who, value


def limits_of(study, deadlines, latencies):
    """The limits that were asked for; the study judges each wait and each job by them."""
    asked = []
    for kind, texts in (("deadline", deadlines), ("latency", latencies)):
        for text in texts:
            who, value = parted(text)
            # a guest that runs without end has no jobs
            vcpus = [vcpu for vcpu in vcpus_of(study, who) if vcpu.script != [] or kind == "latency"]
            if not vcpus:
                raise Refused(f"{who} has no jobs: its scripts are empty, and it runs without end")
            for vcpu in vcpus:
                asked.append(Limit(kind, vcpu, time_of(value)))
                (vcpu.tally.deadlines if kind == "deadline" else vcpu.tally.latencies).append(asked[-1])
    return asked


def shares_of(study, texts):
    """The shares that were asked for: each domain with a part of one."""
    found = []
    for text in texts:
        who, value = parted(text)
        try:
            found.append((domain_of(study, who), float(value.removesuffix("%")) / 100))
        except ValueError:
            raise Refused(f"{value!r} is no share: write it as 40%") from None
    return found


def judge_open(study, asked):
    """A job or a wait that is not over at the end, and is already longer than its limit, has missed it."""
    for limit in asked:
        vcpu = limit.vcpu
        if vcpu.state == SLEEPS or vcpu.job_from is None or (limit.kind == "latency" and vcpu.has_run):
            continue
        age = since_release(vcpu, study.end)
        if age > limit.span:
            limit.judge(age, study.end)


def broken_limits(asked):
    """A sentence for each limit that was missed."""
    for limit in asked:
        if limit.missed:
            yield (f"{limit.vcpu.domain.name} {limit.vcpu.name}: {limit.missed} of {limit.met + limit.missed} missed the {limit.kind} of "
                   f"{milliseconds(limit.span)} ms, the first at {milliseconds(limit.first_missed)} ms")


def broken_shares(study, shares):
    """A sentence for each share that is too low."""
    for domain, least in shares:
        had = sum(study.ran(unit) for unit in domain.units) / (capacity_of(study, domain) or 1)
        if had < least:
            yield f"{domain.name} has {percent(had)} of its pool, and {percent(least)} were asked for"

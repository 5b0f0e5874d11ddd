"""Refusals of the host in words for a person who uses Git."""
from .address import Address
from .explaining import explained, quoted
from .faults import Refused
from .plan import MAX_CONTENT, Plan
from .progress import say
from .remote import Remote
from .repository import Repository

LARGE = (
    "remove what is too large from the commits that you push, by 'git rm --cached FILE' and 'git commit --amend', "
    "or by git-filter-repo if it is in older ones; then push again"
)
WORDS = {
    "bad-ref": "the host does not accept this reference name",
    "ref-conflict": "{detail} and a name below it cannot both exist",
    "not-a-commit": "a branch must point at a commit",
    "too-many": "the repository would have too many references",
    "wrong-type": "{detail} has another type than the link to it says",
    "missing": "tenant '{address.tenant}' sees no object {detail}",
    "unknown-tenant": "the host has no tenant '{address.tenant}'",
    "no-repository": "repository '{address.repository}' of tenant '{address.tenant}' not found",
    "bad-request": "the host does not know this request",
    "no-upload": "another client of the tenant ended the upload; push again",
    "upload-open": "another client of the tenant began an upload; push again",
    "staged-too-long": "another client of the tenant went on with the upload; push again",
}


def told(refusal: Refused, address: Address) -> str:
    """A refusal by itself."""
    if refusal.word not in WORDS:
        return f"the host refused: {refusal}"
    return WORDS[refusal.word].format(detail=refusal.detail, address=address)


def told_of_large(plan: Plan) -> str:
    """The first object that is too large; a person is told of all of them, and what to do."""
    large = [one for one in plan.objects if one.length > MAX_CONTENT]
    rows = [f"{quoted(plan.paths.get(one.name) or one.name)} has {one.length} bytes" for one in large]
    for row in rows:
        say(f"{row}, which is too large")
    say(LARGE)
    others = f" (and {len(rows) - 1} more)" if rows[1:] else ""
    return f"{rows[0]}{others}, and the host accepts at most {MAX_CONTENT}"


def told_of_push(refusal: Refused, address: Address, repository: Repository, remote: Remote, plan: Plan) -> str:
    """A refusal of a push: with the tenant's use, or with the path of the object, or in words that Git knows."""
    name, path = refusal.detail, plan.paths.get(refusal.detail, "")
    if refusal.word == "over-quota":
        used, limit = remote.quota()
        return f"over quota: {used} of {limit} bytes are used, and this push brings up to {plan.use()}"
    if refusal.word == "too-large":
        return told_of_large(plan)
    if refusal.word == "bad-object":
        return explained(repository, name, path)
    if refusal.word == "missing" and repository.present([name]):
        return f"the host does not have object {name} any more; push again"
    if refusal.word == "missing":
        return f"missing necessary objects: neither this repository nor the host has object {name}"
    return told(refusal, address)

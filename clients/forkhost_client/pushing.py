"""A push: updates in transactions, each with the objects that it wants."""
from .address import Address
from .faults import Fatal, Lost, Refused, word_of
from .listing import Listing
from .options import Options
from .plan import Plan, plan, too_large
from .remote import Remote
from .repository import Repository
from .updates import ABSENT, Update, blamed, judge
from .uploading import send_all

MAX_COMMANDS = 256
ONE_FAILED = "atomic push failed"


class Push:
    """Updates of one repository over one connection."""

    def __init__(self, address: Address, repository: Repository, remote: Remote, listing: Listing, options: Options):
        self.address, self.repository, self.remote = address, repository, remote
        self.listing, self.options = listing, options

    def carry_out(self, updates: list) -> None:
        """In as many transactions as it takes, deletions first, so that a name makes room for one below it."""
        due = sorted(updates, key=lambda update: update.new != ABSENT)
        try:
            for at in range(0, len(due), MAX_COMMANDS):
                self.transact(due[at : at + MAX_COMMANDS])
        except Lost as fault:
            refuse(due, f"{fault}; whether the push was done is unknown, so fetch and look", word_of(fault))
        except Fatal as fault:
            refuse(due, str(fault), word_of(fault))

    def transact(self, updates: list) -> None:
        """One transaction; and another one without those that are refused, unless all or none are asked for."""
        while updates:
            sent = Plan([], {})
            try:
                sent = plan(self.repository, self.remote, self.listing.refs.values(), [one.new for one in updates])
                too_large(sent.objects)
                self.send(sent, updates)
                return
            except Refused as refusal:
                self.blame(refusal, sent, updates)
            updates = [update for update in updates if not update.refusal]
            if self.options.atomic:
                refuse(updates, ONE_FAILED)
                return

    def send(self, sent: Plan, updates: list) -> None:
        if not self.options.dry_run:
            commands = "".join(update.command() for update in updates).encode("utf-8", "surrogateescape")
            send_all(self.repository, self.remote, sent, commands, self.options.progress)
        for update in updates:
            update.is_done = True
            if update.new == ABSENT:
                self.listing.refs.pop(update.ref, None)
            else:
                self.listing.refs[update.ref] = update.new

    def blame(self, refusal: Refused, sent: Plan, updates: list) -> None:
        from .words import told_of_push

        text = told_of_push(refusal, self.address, self.repository, self.remote, sent)
        for update in blamed(updates, refusal.word, refusal.detail):
            update.refuse(update.stale() if refusal.word == "stale" else text, refusal.word)


def refuse(updates: list, text: str, word: str = "refused") -> None:
    """All that were not carried out, and have not been told why, were refused for this."""
    for update in updates:
        if update.is_due():
            update.refuse(text, word)


def chosen(updates: list, repository: Repository, atomic: bool) -> list:
    """Those that the host is to be asked for."""
    judge(updates, repository)
    good = [update for update in updates if update.is_due()]
    if atomic and any(update.refusal for update in updates):
        refuse(good, ONE_FAILED)
    elif atomic and len(good) > MAX_COMMANDS:
        refuse(good, f"the host changes at most {MAX_COMMANDS} references at once")
    return [update for update in good if update.is_due()]

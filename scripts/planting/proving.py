"""Which edits the prover refuses. One check tries many: it judges each function by the contracts of those that it calls, so
an edit of a body hides none of another function."""
import contextlib
import random
import threading
import time

from building import running
from . import checking, edits, functions

# How many edits one check tries: more would leave cores idle at the end.
MOST = 24
# How often answers are taken away from the proof of one body.
TURNS = 6
SURVIVED = "survived"


class Run:
    """The edits that are tried, and what became of them."""

    def __init__(self, room, known, jobs, broken):
        self.room, self.crates, self.jobs, self.broken = room, known, jobs, broken
        self.refused = {it: [] for it in checking.KINDS}
        self.survived, self.unshown = [], []
        self.rounds, self.desks = [], {}
        # Only one crate or library is made ready at a time, with all jobs: more would need too much memory.
        self.guard = threading.Lock()

    def plan(self, found):
        """Puts the edits into rounds of a crate, the named ones first, in none of which two change one function. One outside every
        function can only be tried alone."""
        self.owners = {edit: owners for edit, owners, _ in functions.owned(found)}
        self.unseen = [it for it, owners in self.owners.items() if not owners]
        taken = lambda it: {owner for one in it for owner in self.owners[one]}
        for edit in sorted((it for it in self.owners if self.owners[it]), key=lambda it: not it.is_named):
            rivals = (it for it in self.rounds if it[0].crate == edit.crate and len(it) < MOST)
            home = next((it for it in rivals if not taken(it) & set(self.owners[edit])), None)
            if home is None:
                self.rounds.append(home := [])
            home.append(edit)

    def go(self):
        """Tries the rounds, and then alone what they did not show."""
        # The crates take turns by chance, so that one is made ready while edits of another are tried.
        random.Random(0).shuffle(self.rounds)
        self.rounds.sort(key=lambda it: not it[0].is_named)
        self.side_by_side(self.try_round, self.rounds)
        hidden, self.unseen = self.unseen, []
        self.side_by_side(self.try_alone, [[it] for it in hidden])

    def side_by_side(self, do, batches):
        running.do_all([running.Step(lambda _, it=it: do(it)) for it in batches], self.jobs)

    def desk(self, crate):
        """The crate's desk, where all that its edits change is proved as it stands."""
        # Those that are ready do not wait.
        with self.guard if crate not in self.desks else contextlib.nullcontext():
            if crate not in self.desks:
                lacking = [it for it in self.crates[crate].below if not it.is_built()]
                with running.lock(lacking):
                    running.build_all(lacking)
                desk = checking.Desk(self.crates[crate], self.room)
                said = desk.check({}, self.paths(it for it in self.owners if it.crate == crate), self.jobs, keeps=True)
                if not said.is_proved:
                    raise SystemExit(f"mutants: {crate} is not proved as it stands: {said.first_error()}")
                self.desks[crate] = desk
        return self.desks[crate]

    def paths(self, batch):
        return sorted({it.path() for edit in batch for it in self.owners[edit]})

    def check(self, batch, is_whole=False, answers=()):
        """Checks the functions that these edits of a crate change, or all of the crate, with these texts of written answers."""
        crate, paths = batch[0].crate, [] if is_whole else self.paths(batch)
        texts = edits.merged(batch, edits.reader(self.crates[crate].folder)) | dict(answers)
        return self.desk(crate).check(texts, paths, 1)

    def try_round(self, batch):
        began, said = time.monotonic(), self.check(batch)
        # A check that gives no verdict, as of an edit that does not compile, shows none of them.
        kinds = {it: self.kind(it, said) for it in batch if said.is_judged}
        kinds |= self.kinds_without([it for it in kinds if kinds[it] == checking.KINDS[1]], said)
        unseen = [it for it in batch if not self.is_noted(it, kinds.get(it))]
        self.unseen += unseen
        running.tell(f"{batch[0].crate}: {len(batch)} edits, {len(unseen)} to be tried alone, {running.duration(began)}")

    def own(self, edit, said):
        """The functions that the edit changes, and the closures in them, as the check names them."""
        return {path for path in said.verdicts for it in self.owners[edit] if it.is_meant(path)}

    def kind(self, edit, said):
        """How the edit is refused at a function that it changes, or at a closure in it, or None."""
        if not self.owners[edit]:
            return checking.KINDS[0] if said.is_judged and not said.is_proved else None
        kinds = [it for it in map(said.refusal, self.own(edit, said)) if it]
        return min(kinds, key=checking.KINDS.index, default=None)

    def kind_unrefused(self, edit, said):
        """An edit survived where what it changes is proved. Else another edit of the round hides it."""
        is_proved = all(said.verdicts[it].startswith("proved") for it in self.own(edit, said))
        return SURVIVED if is_proved else checking.KINDS[1]

    def kinds_without(self, batch, said):
        """How the edits of a crate that only written proofs refuse are refused once the answers that no longer fit are taken
        away. Others may have stood on them, so that it takes a few turns."""
        kinds, answers = {}, {}
        for _ in range(TURNS):
            if not batch:
                break
            texts = edits.reader(self.crates[batch[0].crate].folder)
            current = lambda file: answers.get(file) or texts(file)
            for path in {path for it in batch for path in self.own(it, said) if said.refusal(path)}:
                with contextlib.suppress(edits.BadEdit):
                    answers |= [said.without(path, current)]
            said = self.check(batch, answers=answers)
            if not said.is_judged:
                break
            kinds |= {it: self.kind(it, said) or self.kind_unrefused(it, said) for it in batch}
            batch = [it for it in batch if kinds[it] == checking.KINDS[1]]
        # Where search does not prove the right body without these answers either, its refusal shows nothing.
        if shown := [it for it in kinds if kinds[it] == checking.KINDS[0]]:
            said = self.desk(shown[0].crate).check(answers, self.paths(shown), 1)
            is_proved = lambda it: said.is_judged and all(said.verdicts[path].startswith("proved") for path in self.own(it, said))
            kinds |= {it: checking.KINDS[1] for it in shown if not is_proved(it)}
        return kinds

    def is_noted(self, edit, kind):
        """Notes how an edit is refused, and returns whether it is. One that no answer but a written one refuses is told of, and if it
        is named it survived."""
        if kind == SURVIVED and not edit.is_named:
            self.unshown.append(edit)
            kind = checking.KINDS[1]
        if kind:
            (self.survived if kind == SURVIVED else self.refused[kind]).append(edit)
        return bool(kind)

    def try_alone(self, batch):
        """Tries an edit by a check of what it changes, and where that does not refuse it by one of the whole crate."""
        edit, said = batch[0], self.check(batch, not self.owners[batch[0]])
        kind = self.kind(edit, said)
        if kind == checking.KINDS[1]:
            kind = self.kinds_without(batch, said).get(edit, kind)
        elif said.is_judged and self.owners[edit] and not kind:
            said = self.check(batch, True)
            kind = self.kind(edit, said)
        if not said.is_judged:
            self.broken.append(f"{edit}: it does not compile: {said.first_error()}")
        elif not self.is_noted(edit, kind):
            self.survived.append(edit)

    def report(self):
        """Says what survived, what is broken and what shows nothing, and returns the status to end with."""
        shown, rest = checking.KINDS
        told = {"survived": self.survived, "broken": self.broken, "refused by no clause": self.unshown, rest: self.refused[rest]}
        print("".join(f"{how}: {it}\n" for how, those in told.items() for it in those), end="")
        counts = {shown: self.refused[shown], "survived": self.survived, rest: self.refused[rest]}
        print("mutants: " + ", ".join(f"{len(those)} {how}" for how, those in counts.items()))
        return 1 if self.survived or self.broken else 0

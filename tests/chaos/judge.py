"""Whether what was answered and shown in a run is what it has to be."""
import collections
import json

import rules as plain
from data import DAYS, HOUR, day_of

MORE_MEMORY, MOST_FILES = 65_536, 120  # KiB more than after the start, and open files.
LONG = 2  # Seconds.


class Judge:
    def __init__(self, plan, history, model, rules, queries):
        self.plan, self.history, self.model, self.rules, self.queries = plan, history, model, rules, queries
        self.counts = collections.Counter()

    def all(self):
        before = {}
        for answer in sorted(self.history.answers, key=lambda it: (it.broker, it.client, it.place)):
            shown = self.answer(answer)
            if shown and answer.client == 'client 0':
                last = before.get(answer.broker)
                if last:
                    self.goes_on(last, (answer, shown))
                before[answer.broker] = answer, shown
        self.marks()
        self.stale()
        return self.counts

    # Answers

    def answer(self, answer):
        """Looks at an answer. Of each day what is visible in each set of files that explains it, where it is right."""
        if answer.status is None:
            self.counts['none'] += 1
            return self.in_time(answer)
        if answer.status not in (200, 503):
            return self.history.fault(f'{answer.broker} answers {answer.status}: {answer.body[:300]}', answer.came)
        self.counts['whole' if answer.status == 200 else 'partial'] += 1
        rows, missing = self.parts(answer)
        if answer.status == 503 and not self.are_slices(missing):
            return self.history.fault(f'{answer.broker}: nothing is missing, or twice, or in another order: {missing}', answer.came)
        if rows != sorted(rows, key=lambda row: row['timestamp']):
            self.history.fault(f'{answer.broker}: rows of later buckets come first', answer.came)
        self.in_time(answer)
        found = self.fitting(answer)
        for day, (masks, fitting, of_day, lost) in enumerate(found):
            if not fitting:
                return self.history.fault(self.unexplained(answer, day, masks, of_day, lost), answer.came)
            self.none_had(answer, lost)
        return [fitting for _, fitting, _, _ in found]

    @staticmethod
    def parts(answer):
        body = json.loads(answer.body)
        return (body, []) if answer.status == 200 else (body['partial'], body['missing'])

    def fitting(self, answer):
        """Of each day the sets of files that may be known, those of them that explain the answer, and its rows and what is missing."""
        rows, missing = self.parts(answer)
        query, found = self.queries[answer.broker, answer.client, answer.place], []
        for day, masks in enumerate(self.model.possible(self.rules, answer)):
            of_day = [row for row in rows if day_of(row['timestamp']) == day]
            lost = frozenset((it['chunk'], it['itvl'], it['part'], it['ver']) for it in missing if day_of(it['itvl'].split('/')[0]) == day)
            found.append((masks, [mask for mask in masks if self.rules.expected(mask, day, query, lost) == of_day], of_day, lost))
        return found

    def stale(self):
        """How many answers would be wrong if they were the latest other one from so long before, and of how many: what the model is worth."""
        whole = [it for it in self.history.answers if it.client == 'client 0' and it.status == 200]
        for answer in whole[::max(1, len(whole) // 40)]:
            others = [it for it in whole if it.broker == answer.broker and it.came < answer.sent - LONG and it.body != answer.body]
            if others:
                self.counts['stale'] += 1
                self.counts['found'] += not all(fitting for _, fitting, _, _ in self.fitting(answer._replace(body=others[-1].body)))

    @staticmethod
    def are_slices(missing):
        places = [(plain.instant(it['itvl'].split('/')[0]), it['part']) for it in missing]
        return bool(places) and places == sorted(set(places))

    def unexplained(self, answer, day, masks, rows, lost):
        query = self.queries[answer.broker, answer.client, answer.place]
        lines = [f'{answer.broker} answers {answer.status} at {answer.sent:.3f} to {answer.came:.3f}, which no state explains; day {day}:',
                 f'    {plain.text(rows)}', f'    missing: {sorted(lost)}', f'    the query: {query.body.decode()}']
        for mask in sorted(masks)[:8]:
            lines.append(f'    of {self.rules.names(mask)}: {plain.text(self.rules.expected(mask, day, query, lost))}')
        return '\n'.join([*lines, f'    {len(masks)} states'])

    def in_time(self, answer):
        """A broker that runs, and to which nothing lies on the way, answers each query within what exchanges with all nodes may take."""
        most = len(self.plan.nodes) * self.plan.patience / 1000 + 2 + 6 * self.history.stall_near(answer.came)
        if (answer.status is None or answer.came - answer.sent > most) and not self.history.is_disturbed(answer.broker, answer.sent, answer.came):
            self.history.fault(f'{answer.broker} has not answered a query of {answer.sent:.3f} by {answer.came:.3f}: {answer.body}', answer.came)

    def none_had(self, answer, lost):
        """What is missing no node had that the broker surely knew to have it, that ran, and to which nothing lay on the way."""
        life = self.history.life_at(answer.broker, answer.sent, answer.came)
        for file in self.plan.files if life and lost else ():
            if any((rules_span(file), file.part, file.version) == (chunk, part, version) for chunk, _, part, version in lost):
                for node in self.plan.nodes:
                    if self.model.has_for_sure(answer.broker, life, node, file, answer.sent, answer.came):
                        self.history.fault(f'{answer.broker} answers at {answer.sent:.3f} to {answer.came:.3f} that {file.name} is missing, which {node} '
                                           'has', answer.came)

    # One answer after another

    def goes_on(self, one, other):
        """Of one client's answers of one broker, asked in order: no hour goes back to an older version whose successor stays."""
        (before, shown), (after, later) = one, other
        life = self.history.life_at(before.broker, before.sent, after.came)
        if not life:
            return
        for day in range(DAYS):
            old, new = self.visible(shown[day], day), self.visible(later[day], day)
            for hour in range(24):
                goes_back = old[hour] and new[hour] is not Ellipsis and old[hour] is not Ellipsis and (new[hour] or ('',)) < old[hour]
                if goes_back and self.must_stay(life, before, after, old[hour]):
                    self.history.fault(f'{after.broker} showed {old[hour][0]} of day {day}, {hour}:00 at {before.sent:.3f} to {before.came:.3f}, and '
                                       f'{new[hour] and new[hour][0]} at {after.sent:.3f} to {after.came:.3f}, while its files stay', after.came)
                    return

    def visible(self, masks, day):
        """The chunk that is visible in each hour, and Ellipsis where what explains an answer does not agree."""
        of_hours = zip(*(self.rules.shown(mask, day) for mask in masks))
        return [each[0] if len(set(each)) == 1 else ... for each in of_hours]

    def must_stay(self, life, before, after, chunk):
        """Whether a broker that knows all of a chunk at an answer knows it at a later one: whichever node it has each file from keeps it."""
        model = self.model
        for file in self.rules.chunks[chunk]:
            for node in model.holders(before.broker, life, file, before.sent, before.came):
                window = model.window(before.broker, life, node, before.sent)
                owner = next((it for it in self.history.lives[node] if it.start <= window.begin <= it.end), None)
                begin = model.look_before(node, owner, window.begin) if owner else window.begin
                if not model.stays(node, file, begin, after.came) or any(it.has_fallen for it in self.history.lives[node]):
                    return False
        return True

    # Marks

    def marks(self):
        """Incarnations rise from life to life of a node, but for one that lost its folder; what a broker holds of a node only rises."""
        for node in self.plan.nodes:
            self.incarnations(node)
        for broker in self.plan.brokers:
            for node in self.plan.nodes:
                last = None
                for it in sorted((it for it in self.history.seen if (it.server, it.node) == (broker, node)), key=lambda it: it.sent):
                    mark, life = (it.incarnation, it.count), self.history.life_at(broker, it.sent, it.came)
                    if last and life is last[1] and mark < last[0]:
                        self.history.fault(f'{broker} shows {mark} of {node} after {last[0]}', it.came)
                    last = (mark, life) if life else None

    def incarnations(self, node):
        most, seen = self.plan.first[node], sorted((it for it in self.history.seen if it.node == node), key=lambda it: it.sent)
        for life in self.history.lives[node]:
            of_life = [it for it in seen if it.server == node and life.ready <= it.sent and it.came <= life.killed]
            numbers = {it.incarnation for it in of_life}
            if life.is_mended:  # What no broker has heard of is lost with the folder, and may come again.
                most = max((it.incarnation for it in seen if it.server != node and it.came <= life.start), default=most)
            if len(numbers) > 1 or of_life != sorted(of_life, key=lambda it: (it.count, it.sent)):
                self.history.fault(f'{node} shows {[(it.incarnation, it.count) for it in of_life]} in one life', of_life[-1].came)
            elif numbers and life.has_fallen and numbers != {1}:
                self.history.fault(f'{node} has lost its folder and shows incarnation {numbers}', of_life[-1].came)
            elif numbers and not life.has_fallen:
                if min(numbers) <= most:
                    self.history.fault(f'{node} shows incarnation {min(numbers)} after {most}', of_life[0].came)
                most = max(most, *numbers)


def rules_span(file):
    return plain.span(file.start, file.end)


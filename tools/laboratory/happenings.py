"""What happened between two pictures of a run, in words: what the collector did by two dumps, and what mutators did by the order."""
from order import cells_text


class Workers:
    """The names of a run's workers."""

    def __init__(self, mutators):
        self.mutators = mutators

    def name(self, worker):
        return f"mutator {worker}" if worker < self.mutators else f"scanner {worker}"


def flips_between(was, now, workers):
    """Exchanges of the spaces, and that one was asked for."""
    if now.is_flip_asked and not was.is_flip_asked:
        yield "a flip is asked for, and the mutators are to stop for it"
    if now.epoch == was.epoch + 1:
        yield f"flip {now.epoch}: the spaces change places"
    elif now.epoch > was.epoch:
        yield f"flips {was.epoch + 1} to {now.epoch}: the spaces change places"


def copies_between(was, now, workers):
    """Records that a worker began to copy, or that were copied."""
    for address in now.changed_since(was, now.old_space()):
        copier, copy = now.copier_of(address), now.copy_of(address)
        if copier is not None:
            yield f"{workers.name(copier)} begins to copy {now.name_at(address)}"
        elif copy is not None:
            before = was.copier_of(address)
            name = now.name_at(address)
            yield f"{workers.name(before)} copies {name} to {copy}" if before is not None else f"{name} is copied to {copy}"


def page_name(dump, number):
    return "the board" if number == 2 * dump.pages else f"page {number}"


def pages_between(was, now, workers):
    """Pages that were taken to be cleaned, or were opened."""
    for number in range(2 * now.pages + 1):
        page = now.page(number)
        if page == was.page(number) or page.epoch != now.epoch:
            continue
        name = page_name(now, number)
        if page.state == "open":
            yield f"{name} is open"
        elif page.worker is not None and page.worker < workers.mutators:
            yield f"{workers.name(page.worker)} touches {name} and cleans it"
        elif page.worker is not None:
            yield f"{workers.name(page.worker)} cleans {name}"


def ends_between(was, now, live):
    """That the copying of a cycle is done."""
    if now.epoch > 0 and now.is_traced and not (was.is_traced and was.epoch == now.epoch):
        yield "copying is done" if live == "-" else f"copying is done, {live} words"


def collector_between(was, now, live, workers):
    """What the collector did between two dumps."""
    for part in (flips_between, copies_between, pages_between):
        yield from part(was, now, workers)
    yield from ends_between(was, now, live)


def mutator_did(event, workers):
    """What is worth telling of an event of the plain machine."""
    if event.mark == "T" and event.emptied:
        return cells_text(event.emptied)
    if event.mutator is None:
        return None
    name = workers.name(event.mutator)
    if event.end is not None:
        return f"{name} ends: {event.end}"
    if event.printed is not None:
        return f"{name} prints {event.printed}"
    return f"{name} makes {event.made}" if event.made else None

# pylint: disable=line-too-long
"""Rules that are wrong, each as one small change of the second program: see the command `twins`."""
from typing import NamedTuple


class Twin(NamedTuple):
    """A wrong rule: `rule` says what the changed program does, `row` what sees it where random inputs do not."""

    group: str
    kind: str
    name: str
    rule: str
    module: str
    old: str
    new: str
    row: str | None


GROUPS = ("calls", "host", "recovery", "stack", "limits", "images", "check", "stores", "widening")
KINDS = {
    "calls": "session",
    "host": "cut",
    "recovery": "cut",
    "stack": "blocks",
    "limits": "limit",
    "images": "image",
    "check": "image",
    "stores": "store",
    "widening": "widen",
}
TWINS: list[Twin] = []
NO_LINE = "no script: an attempt has no line in the report, and one that is cut anywhere leaves what recovers to the same image"


def twin(group: str, name: str, rule: str, module: str, old: str, new: str, *, kind: str | None = None, row: str | None = None) -> None:
    """Puts a wrong rule into the list."""
    TWINS.append(Twin(group, kind or KINDS[group], name, rule, module, old, new, row))


# fmt: off
# Calls on a volume

twin("calls", "write-shrinks", "a write sets the size to its end, also where the file is longer",
     "calls", "node.size = max(node.size, end)", "node.size = end")
twin("calls", "links-249", "a file or directory has at most 249 links", "grammar", "MOST_LINKS = 250", "MOST_LINKS = 249")
twin("calls", "links-251", "a file or directory has up to 251 links", "grammar", "MOST_LINKS = 250", "MOST_LINKS = 251")
twin("calls", "name-of-13", "a name has at most a byte less than it may", "calls", "if len(name) > self.names:", "if len(name) >= self.names:")
twin("calls", "name-of-15", "a name of 15 bytes is too long, also where they have up to 30", "calls", "if len(name) > self.names:", "if len(name) > NAMES:")
twin("calls", "name-of-31", "a name may have a byte more", "calls", "if len(name) > self.names:", "if len(name) > self.names + 1:")
twin("calls", "block-of-62-names", "a block of a directory has 64 slots, also of long names", "calls", "return BLOCK // slot_bytes(names)", "return BLOCK // slot_bytes(NAMES)")
twin("calls", "slot-of-16", "the size of a directory counts 16 bytes a slot, also of long names", "calls",
     "return slot_bytes(self.names) * len(node.slots)", "return slot_bytes(NAMES) * len(node.slots)")
twin("calls", "largest-size", "the greatest size is one byte less", "grammar", "LARGEST = 268_966_912", "LARGEST = 268_966_911")
twin("calls", "cut-keeps-bytes", "a truncate leaves the bytes of the last block past the size",
     "calls", "node.blocks[last][:within] + bytes(BLOCK - within)", "node.blocks[last]")
twin("calls", "cut-unmaps-last", "a truncate unmaps the last block too, where the size ends in it",
     "calls", "for at, body in node.blocks.items() if at * BLOCK < size}", "for at, body in node.blocks.items() if (at + 1) * BLOCK <= size}")
twin("calls", "cut-keeps-block", "a truncate keeps the block that begins at the size",
     "calls", "for at, body in node.blocks.items() if at * BLOCK < size}", "for at, body in node.blocks.items() if at * BLOCK <= size}")
twin("calls", "hole-is-ff", "a hole reads as bytes ff", "calls", "node.blocks.get(at // BLOCK, bytes(BLOCK))", 'node.blocks.get(at // BLOCK, b"\\xff" * BLOCK)')
twin("calls", "directory-indirect-late", "a directory has its zone of numbers from its ninth block on",
     "calls", "(1 if blocks > DIRECT else 0)", "(1 if blocks > DIRECT + 1 else 0)")
twin("calls", "double-late", "the doubly indirect zone is counted from block 520 on",
     "calls", "for at in blocks if at >= DIRECT + NUMBERS}", "for at in blocks if at > DIRECT + NUMBERS}")
twin("calls", "inode-less", "a volume of I inodes has I - 1 nodes", "calls", "len(self.nodes) >= self.inodes", "len(self.nodes) >= self.inodes - 1")
twin("calls", "zone-less", "a new name that needs the last zone finds no space",
     "calls", "more + zones > self.free_zones()", "more + zones >= self.free_zones() and more + zones")
twin("calls", "slot-not-reused", "a new name goes to the end, also where a slot is free",
     "calls", "        if FREE in directory.slots:\n            directory.slots[", "        if False:\n            directory.slots[")
twin("calls", "slots-33215", "a directory has at most a slot less than it may", "calls",
     "slots >= DIRECTORY_BLOCKS * block_slots(self.names) and", "slots >= DIRECTORY_BLOCKS * block_slots(self.names) - 1 and",
     row="examples/outside/full_directory, by hand")
twin("calls", "rmdir-keeps-link", "a removed directory leaves its parent's links as they were", "calls", "        directory.links -= 1\n", "")
twin("calls", "refusal-order", "no inode is tested before the slots and the links", "calls",
     "        if links and directory.links >= MOST_LINKS:", "        if inode and len(self.nodes) >= self.inodes:\n            raise Refused(\"no inode\")\n        if links and directory.links >= MOST_LINKS:")
twin("calls", "mkdir-links-first", "a new directory is refused for its parent's links before its name", "calls",
     '            raise Refused("exists")\n        if links and directory.links >= MOST_LINKS:\n            raise Refused("too many links")\n',
     '            raise Refused("too many links" if links and directory.links >= MOST_LINKS else "exists")\n        if links and directory.links >= MOST_LINKS:\n            raise Refused("too many links")\n')
twin("calls", "link-links-first", "a new name of a file is refused for the file's links before its name", "calls",
     '            raise Refused("exists")\n        if node.links >= MOST_LINKS:', '            raise Refused("too many links" if node.links >= MOST_LINKS else "exists")\n        if node.links >= MOST_LINKS:')
twin("calls", "link-links-last", "a new name of a file is refused for the file's links after its directory's zones", "calls",
     '        if node.links >= MOST_LINKS:\n            raise Refused("too many links")\n        self.may_grow(directory, inode=False, zones=0)\n',
     '        self.may_grow(directory, inode=False, zones=0)\n        if node.links >= MOST_LINKS:\n            raise Refused("too many links")\n',
     row="long.txt")
twin("calls", "rename-links-first", "a directory is refused for its new parent's links before what stands there", "calls",
     "        self.may_replace(node, target)\n        leaves = directory is not source\n", '        leaves = directory is not source\n        if leaves and node.is_directory and directory.links >= MOST_LINKS:\n            raise Refused("too many links")\n        self.may_replace(node, target)\n')
twin("calls", "rename-links-within", "a directory that stays in its parent is refused for the parent's links", "calls", "if node.is_directory and leaves and directory.links >= MOST_LINKS:", "if node.is_directory and directory.links >= MOST_LINKS:")
twin("calls", "rename-into-itself", "a directory may be moved to below itself once removed", "calls",
     "any(self.walk(others[:at]) is node for at in range(len(others)))", "directory is node")
twin("calls", "rename-keeps-links", "a moved directory leaves the links of both parents as they were", "calls", "        if target is not node:\n            self.move_name(", "        leaves = False\n        if target is not node:\n            self.move_name(")
twin("calls", "rename-kind-first", "a rename over a directory is refused as one of a file", "calls", 'raise Refused("exists" if node.is_directory else "is a directory")', 'raise Refused("is a directory")')
twin("calls", "rename-takes-slot", "a name that is renamed over a file stands in the slot that it left", "calls",
     "        directory.names[other] = node\n", "        directory.slots[directory.slots.index(other)] = FREE\n        self.put_name(directory, other, node)\n", kind="cut")
twin("calls", "rename-keeps-target", "a file whose last name is taken by a rename stays in the volume", "calls", "        if target.links == 0:\n            del self.nodes[target.number]\n", "")
twin("calls", "rename-needs-room", "a rename in a directory needs room for one more name", "calls", "if target is None and leaves:", "if target is None:")
twin("calls", "rename-onto-itself", "a rename of two names of one file takes the first one away", "calls", "        if target is not node:\n            self.move_name(", "        if target is not node or names != others:\n            self.move_name(")
twin("calls", "dots-stay", "a moved directory keeps its name for its parent", "places",
     "self.parents |= {child.number: number for child in node.names.values() if child.is_directory}",
     "self.parents |= {child.number: vars(self).get(\"parents\", {}).get(child.number, number) for child in node.names.values() if child.is_directory}")
twin("calls", "zones-of-mkdir", "a new directory takes its own zone last", "places",
     "                    self.nodes[number].data[0] = self.take(change)\n",
     "                    zone = next(zone for zone in reversed(range(self.first, self.zones)) if zone not in self.used)\n"
     "                    self.nodes[number].data[0] = zone\n                    self.used.add(zone)\n", kind="cut")
twin("calls", "numbers-first", "a block takes the zone of numbers that it needs before its own zone", "places",
     "            place.data[at] = self.take(change)\n            if is_directory:\n                change.blocks.add(place.data[at])\n            self.take_numbers(change, place, at)\n",
     "            self.take_numbers(change, place, at)\n            place.data[at] = self.take(change)\n            if is_directory:\n                change.blocks.add(place.data[at])\n", kind="cut")
twin("calls", "inode-greatest", "a new node takes the greatest free inode", "places",
     "next(n for n in range(1, self.inodes + 1) if n not in taken)", "next(n for n in range(self.inodes, 0, -1) if n not in taken)", kind="cut")

# The host

twin("host", "size-unchanged", "a call that changes a file's size alone does not change the file", "places",
     "for name in node.slots] if node.is_directory else node.size\n", "for name in node.slots] if node.is_directory else 0\n")
twin("host", "links-change", "a call that changes a file's links changes the file", "places",
     "for name in node.slots] if node.is_directory else node.size\n", "for name in node.slots] if node.is_directory else (node.size, node.links)\n")
twin("host", "closing-hinders-none", "a call goes on while a transaction is being closed", "host",
     '        if self.phase == "closing":\n            return True\n        if not', "        if not")
twin("host", "full-wants-nothing", "a call that finds the transaction full does not ask for it to be closed", "host",
     "        if not self.fits():\n            self.want()\n", "        if not self.fits():\n")
twin("host", "quarantine-wants-always", "a call that waits for zones always asks for the running transaction to be closed", "host",
     "if need > free + sum(tx != self.running.number for tx in self.quarantine.values()):", "if True:")
twin("host", "quarantine-wants-never", "a call that waits for zones never asks for the running transaction to be closed", "host",
     "if need > free + sum(tx != self.running.number for tx in self.quarantine.values()):", "if False:")
twin("host", "bodies-13", "the greatest call is taken to add 13 blocks", "host", "MORE_BODIES, MORE_REVOKES = 12, 520", "MORE_BODIES, MORE_REVOKES = 13, 520")
twin("host", "bodies-11", "the greatest call is taken to add 11 blocks", "host", "MORE_BODIES, MORE_REVOKES = 12, 520", "MORE_BODIES, MORE_REVOKES = 11, 520")
twin("host", "revokes-519", "the greatest call is taken to add 519 revokes", "host", "MORE_BODIES, MORE_REVOKES = 12, 520", "MORE_BODIES, MORE_REVOKES = 12, 519",
     row="the law calls_are_noted of journal_ring, whose `room` speaks of 520 revokes; only transactions with 237 revokes differ")
twin("host", "files-fall", "the pages of changed files go out with the last file first", "host",
     "for place, page in sorted(self.pages.items()) if place[0] in self.closing.nodes",
     "for place, page in sorted(self.pages.items(), key=lambda item: (-item[0][0], item[0][1])) if place[0] in self.closing.nodes")
twin("host", "sync-by-index", "sync sends the first blocks of all files, then the second ones, and so on", "host",
     "pages = [place for place, page in sorted(self.pages.items())", "pages = [place for place, page in sorted(self.pages.items(), key=lambda item: item[0][::-1])")
twin("host", "completion-first", "the flush actor takes a completion before it submits a flush that is due", "host",
     "        if self.is_due():\n", "        if not self.completions and self.is_due():\n")
twin("host", "flush-each", "each sync call has a flush of its own, also where one after its request was submitted", "host",
     "not any(flush > need for flush in self.flushes) for need in moved if", "self.flushed < need for need in moved if")
twin("host", "completion-taken-twice", "an answer that sends the kept completion takes the next one too", "host",
     "            self.kept_completion = None\n            self.changes += 1\n", "            self.kept_completion = None\n            self.changes += 1\n            if was_kept:\n                self.answer()\n",
     row="examples/kept-completion.script")
twin("host", "command-taken-twice", "a dispatch that sends the kept command takes the next one too", "host",
     "            self.kept = None\n            self.changes += 1\n", "            self.kept = self.scheduler.dispatch(pick) if was_kept else None\n            self.changes += 1\n")
twin("host", "holds-end-early", "a transaction for which a sync call waits holds its blocks until its commit block is done", "host",
     "if not any(call.word in SYNC_CALLS and call.target == tx for call in self.begun()):", "if True:")
twin("host", "conflict-closes", "a transaction is closed while an earlier one holds a block of it", "host",
     "if self.running.wanted and not self.conflicts:", "if self.running.wanted:")
twin("host", "zones-early", "zones are handed out once the transaction that freed them is closed", "host",
     "        self.held |= {block: closing.number for block in closing.blocks}\n",
     "        self.held |= {block: closing.number for block in closing.blocks}\n"
     "        for zone in [zone for zone, tx in self.quarantine.items() if tx == closing.number]:\n"
     "            del self.quarantine[zone]\n            self.places.used.discard(zone)\n")
twin("host", "no-data-barrier", "the last page of a data barrier is no barrier", "host",
     "is_last and call.word in DATA_CALLS", "False")
twin("host", "first-page-barrier", "each page of a data barrier is a barrier", "host",
     "is_last and call.word in DATA_CALLS", "call.word in DATA_CALLS")
twin("host", "page-not-again", "a page that was sent orderless is not sent once more", "host",
     'self.state in ("dirty", "loose")', 'self.state == "dirty"')
twin("host", "orderless-early", "the write-back sends a page orderless once the transaction that took its zone is closed", "host",
     "is_free = self.taker[page.zone] in self.commits", "is_free = self.taker[page.zone] < self.running.number")
twin("host", "data-waits-for-none", "a data barrier or fdatasync does not wait for the transaction that changed its file", "host",
     "if changed is not None and changed not in self.commits:", "if False:")
twin("host", "datasync-by-commit", "fdatasync with a transaction waits for a flush after the commit block, and not after the last put", "host",
     "            call.durable = self.last_put\n            self.changes += 1\n        need =", "            call.durable = self.commits[call.target]\n            self.changes += 1\n        need =")
twin("host", "last-failed", "a call that is read-only names the last request that failed", "host",
     "            if self.failed is None:\n                self.failed = number\n", "            self.failed = number\n")
twin("host", "reads-read-only", "a call that reads is read-only too", "host", "if self.failed is not None and word not in READS:", "if self.failed is not None:")
twin("host", "begun-goes-on", "a call that has begun goes on where a request failed", "host",
     "if self.failed is not None and word not in READS:", "if self.failed is not None and word not in READS and thread.begun is None:")
twin("host", "actors-go-on", "the actors submit where a request failed", "host", "return self.is_down or self.failed is not None", "return self.is_down")
twin("host", "limit-more", "a session has one request more than its limit", "host", "return self.requests >= self.script.limit", "return self.requests > self.script.limit")
twin("host", "flush-at-limit", "a sync call at the limit ends as session full, also where a flush after its request was submitted", "host",
     "if self.is_full() and not any(flush > request for flush in self.flushes):", "if self.is_full():")
twin("host", "list-fixed-late", "a barrier or sync call sends the pages that are unsent at each step", "host",
     "            call.pages = call.pages[at + 1 :]\n", "            call.pages = [p for p, other in sorted(self.pages.items()) if call.node in (None, p[0])]\n")

# The journal and recovery

twin("recovery", "checkpoint-early", "a checkpoint is made where the log blocks fit exactly", "host",
     "self.checkpoint is None and need > self.free", "self.checkpoint is None and need >= self.free")
twin("recovery", "checkpoint-late", "a checkpoint is made one block too late", "host",
     "self.checkpoint is None and need > self.free", "self.checkpoint is None and need > self.free + 1")
twin("recovery", "checkpoint-revoked", "a checkpoint sends home what was revoked since", "host",
     "        for block in self.closing.revokes:\n            self.homes.pop(block, None)\n", "")
twin("recovery", "checkpoint-no-barrier", "the last body of a checkpoint is no barrier", "host",
     "is_barrier=len(left) == 1)", "is_barrier=False)",
     row="the law checkpoints_make_room_in_the_log of host_machine, whose worked checkpoint ends in a barrier")
twin("recovery", "tail-next", "the superblock of a checkpoint begins one block after the transaction", "host",
     "super_of(self.closing.number, self.head)", "super_of(self.closing.number, self.head % (self.script.journal - 1) + 1)")
twin("recovery", "commit-no-barrier", "the request before the commit block is no barrier", "host", "at >= len(puts) - 2)", "at >= len(puts) - 1)")
twin("recovery", "revokes-not-written", "a transaction has no revoke blocks", "host",
     "for at in range(0, len(revokes), in_revoke):", "for at in range(0, 0, in_revoke):")
twin("recovery", "revokes-not-read", "recovery does as if there were no revokes", "recovery",
     "            for block in revokes:\n                found.pop(block, None)\n", "")
twin("recovery", "revoke-not-own", "a revoke cancels the bodies of earlier transactions, and not those of its own", "recovery",
     "            found |= dict(bodies)\n            for block in revokes:\n                found.pop(block, None)\n",
     "            for block in revokes:\n                found.pop(block, None)\n            found |= dict(bodies)\n",
     row="`revoke before its body` and `revoke behind its body` of tells_what_counts_in_a_log (journal_tests); no session writes such a log")
twin("recovery", "revoke-for-good", "a revoke cancels the bodies of later transactions too", "recovery",
     "        return found\n\n    def last", "        for block in {block for _, revokes in self.transactions for block in revokes}:\n            found.pop(block, None)\n        return found\n\n    def last")
twin("recovery", "first-body", "each block gets its first body in the log", "recovery", "found |= dict(bodies)", "found = dict(bodies) | found")
twin("recovery", "old-sequence", "the log goes on with a block of any sequence", "recovery",
     ' or block.sequence != expected:', ":")
twin("recovery", "half-transaction", "a transaction without its commit block counts", "recovery",
     ' or block.sequence != expected:\n                return\n', ' or block.sequence != expected:\n                if bodies:\n                    self.transactions.append((bodies, revokes))\n                return\n')
twin("recovery", "no-wrap", "the log ends where the journal ends", "recovery",
     "while at < self.length:", "while self.start - 1 + at < self.length:")
twin("recovery", "descriptor-121", "a descriptor has at most 121 bodies", "grammar", "32: (122, 252)", "32: (121, 252)", kind="session")
twin("recovery", "wide-descriptor-81", "a descriptor with wide tags has at most 81 bodies", "grammar", "64: (82, 126)", "64: (81, 126)", kind="session")
twin("recovery", "wide-descriptor-122", "a descriptor with wide tags has as many bodies as one with narrow ones", "grammar", "64: (82, 126)", "64: (122, 126)", kind="session")
twin("recovery", "wide-revokes-125", "a wide revoke block has at most 125 numbers", "grammar", "64: (82, 126)", "64: (82, 125)", kind="session")
twin("recovery", "revokes-251", "a revoke block has at most 251 numbers", "grammar", "32: (122, 252)", "32: (122, 251)", kind="session")
twin("recovery", "attempt-no-barrier", "the last body that recovery sends home is no barrier", "recovery",
     "put_of(at, block, body, at == len(homes) - 1)", "put_of(at, block, body, False)")
twin("recovery", "attempt-falls", "recovery sends the bodies home in falling order", "recovery",
     "homes = sorted(log.homes().items())", "homes = sorted(log.homes().items(), reverse=True)",
     row=NO_LINE)
twin("recovery", "attempt-depth", "an attempt of recovery has a device of depth 32", "recovery",
     "self.depth, self.flash = depth, flash", "self.depth, self.flash = 32, flash",
     row=NO_LINE)
twin("recovery", "attempt-persists-first", "a step that recovery chooses itself persists before it transfers", "recovery",
     "self.device.transfer(0) or self.device.persist(0)", "self.device.persist(0) or self.device.transfer(0)",
     row=NO_LINE)

# The block stack

twin("stack", "depth-31", "the device has room for 31 commands where the script says nothing", "blocks",
     "self.queue, self.elevator = DEPTH, QUEUE, False", "self.queue, self.elevator = 31, QUEUE, False")
twin("stack", "queue-31", "the queues have 31 places where the script says nothing", "blocks",
     "self.queue, self.elevator = DEPTH, QUEUE, False", "self.queue, self.elevator = DEPTH, 31, False")
twin("stack", "merge-15", "the elevator joins at most 15 puts", "blocks", "CLASS_LIMIT = 16", "CLASS_LIMIT = 15")
twin("stack", "held-127", "the scheduler holds at most 127 requests", "blocks", "HELD_LIMIT = 128", "HELD_LIMIT = 127")
twin("stack", "merge-both", "the elevator joins puts of both classes", "blocks", " if r.keeps_order == first.keeps_order}", "}")
twin("stack", "head-at-first", "the elevator goes on after the first block of its last command", "blocks",
     "self.place = taken[-1].block + 1", "self.place = taken[0].block + 1")
twin("stack", "head-at-block", "the elevator goes on at the last block of its last command", "blocks",
     "self.place = taken[-1].block + 1", "self.place = taken[-1].block")
twin("stack", "head-at-zero", "the elevator begins at the lowest block each time", "blocks", "key=lambda r: (r.block < self.place, r.block)", "key=lambda r: r.block")
twin("stack", "flush-moves-head", "a flush moves the elevator to the lowest block", "blocks",
     "            self.held, self.closing = [], None\n", "            self.held, self.closing, self.place = [], None, 0\n")
twin("stack", "first-in-first-out", "without the elevator only the first request that waits is eligible", "blocks",
     "            return found\n        return sorted", "            return found[:1]\n        return sorted")
twin("stack", "same-block-overtakes", "a put may leave before an earlier one of its block", "blocks",
     "elif request.block not in waiting:", "else:")
twin("stack", "flush-overtakes", "a flush may leave while others wait", "blocks", "                if len(self.held) == 1:\n", "                if self.held:\n")
twin("stack", "barrier-closes-not", "a barrier does not close the scheduler", "blocks", "        if request.is_barrier:\n", "        if request.is_flush:\n")
twin("stack", "flag-stays", "the flag leaves with the request that brought it", "blocks", "carries = taken[0].keeps_order and is_last", "carries = self.closing in taken")
twin("stack", "flag-while-flush", "the last order-preserving put before a flush carries the flag", "blocks",
     "self.closing is not None and not self.closing.is_flush and not any(r.keeps_order for r in self.held)",
     "self.closing is not None and not any(r.keeps_order and not r.is_flush for r in self.held)")
twin("stack", "flag-last-of-all", "the flag leaves once nothing waits, orderless puts neither", "blocks",
     "not any(r.keeps_order for r in self.held)", "not self.held")
twin("stack", "simple-passes-ordered", "a SIMPLE command may be transferred before an earlier ORDERED one", "blocks",
     "any(c.is_ordered or c.blocks() & command.blocks() for c in before)", "any(c.blocks() & command.blocks() for c in before)")
twin("stack", "blocks-pass", "a SIMPLE command may be transferred before an earlier one of its block", "blocks",
     "any(c.is_ordered or c.blocks() & command.blocks() for c in before)", "any(c.is_ordered for c in before)")
twin("stack", "flush-passes-cache", "a flush is transferred while the cache has entries", "blocks",
     "return not before and not (command.is_flush and self.cache)", "return not before")
twin("stack", "epoch-goes-on", "a barrier ends no epoch", "blocks", "            self.epoch += 1\n", "            pass\n")
twin("stack", "replaced-to-end", "a block that replaces an entry goes to the end of the cache", "blocks",
     "                self.cache[same[0]] = entry\n", "                self.cache.pop(same[0])\n                self.cache.append(entry)\n")
twin("stack", "any-epoch", "an entry of any epoch is eligible for persist", "blocks", " if entry.epoch == self.cache[0].epoch]", "]")
twin("stack", "depth-more", "the device takes one command more than its depth", "blocks", "len(self.waiting) < self.depth", "len(self.waiting) <= self.depth")
twin("stack", "command-taken-twice-blocks", "a dispatch that sends the kept command takes the next one too", "blocks",
     "            self.sent.append(command)\n            self.kept = None\n", "            self.sent.append(command)\n            self.kept = self.scheduler.dispatch(0) if self.kept is command else None\n")
twin("stack", "cut-late", "the power goes off one step later", "blocks", "self.steps < self.cut", "self.steps <= self.cut")
twin("stack", "fail-late", "the transfer behind the one that is said fails", "blocks", "self.transfers >= self.fail", "self.transfers > self.fail")
twin("stack", "failed-moves", "a transfer that fails moves its command all the same", "blocks",
     "        if not self.has_failed():\n            self.move(command)\n", "        self.move(command)\n")
twin("stack", "transfers-behind", "commands behind a transfer that failed are transferred and lost", "blocks", "if not self.is_on() or self.has_failed():", "if not self.is_on():")
twin("stack", "fail-no-step", "a transfer that fails is no step", "blocks",
     "self.steps, self.transfers = self.steps + 1, self.transfers + 1\n", "self.transfers += 1\n        self.steps += not self.has_failed()\n")

# The flash log

twin("stack", "gap-survives", "programmed pages behind one that is not are on the medium, and are folded", "blocks",
     "list(itertools.takewhile(lambda page: page.programmed, self.pages[self.folded :]))", "[page for page in self.pages[self.folded :] if page.programmed]")
twin("stack", "surface-behind-gap", "the medium has the programmed pages behind one that is not", "blocks",
     "        for page in self.kept():\n", "        for page in [page for page in self.pages[self.folded :] if page.programmed]:\n")
twin("stack", "log-order-lost", "the pages lie over the data area with the first one on top", "blocks",
     "        for page in self.kept():\n", "        for page in reversed(self.kept()):\n")
twin("stack", "segment-15", "a segment of the log has 15 places", "blocks", "SEGMENT = 16", "SEGMENT = 15")
twin("stack", "erased-by-page", "a place is free as soon as its page is folded", "blocks",
     "(self.segments + erased) * SEGMENT - len(self.pages)", "self.segments * SEGMENT + self.folded - len(self.pages)")
twin("stack", "never-erased", "no segment is ever erased", "blocks", "erased = self.folded // SEGMENT", "erased = 0")
twin("stack", "log-one-less", "a command with as many parts as the log has free places waits", "blocks",
     "if len(command.parts) > self.free_places():", "if len(command.parts) >= self.free_places() and command.parts:")
twin("stack", "fold-first", "the fold stands before the programs", "blocks",
     "[page for page in self.pages[self.folded :] if not page.programmed] + self.kept()[:1]", "self.kept()[:1] + [page for page in self.pages[self.folded :] if not page.programmed]")
twin("stack", "flush-passes-pages", "a flush is transferred while a page is not programmed", "blocks",
     "return at == 0 and all(page.programmed for page in self.pages[self.folded :])", "return at == 0")
twin("stack", "flush-waits-for-folds", "a flush waits until each page is folded", "blocks",
     "all(page.programmed for page in self.pages[self.folded :])", "len(self.pages) == self.folded")

# The limits of scripts

twin("limits", "threads-15", "a script has at most 15 threads", "grammar", "MOST_THREADS = 16", "MOST_THREADS = 15")
twin("limits", "threads-20", "a script has up to 20 threads", "grammar", "MOST_THREADS = 16", "MOST_THREADS = 20")
twin("limits", "words-1001", "a line of recovery has up to 1,001 words", "grammar", "MOST_WORDS = 1_000", "MOST_WORDS = 1_001")
twin("limits", "words-999", "a line of recovery has at most 999 words", "grammar", "MOST_WORDS = 1_000", "MOST_WORDS = 999")
twin("limits", "attempts-101", "a script has up to 101 lines of recovery", "grammar", "MOST_ATTEMPTS = 100", "MOST_ATTEMPTS = 101")
twin("limits", "digits-2046", "bytes has at most 2,046 digits", "grammar", "MOST_DIGITS = 2_048", "MOST_DIGITS = 2_046")
twin("limits", "digits-2050", "bytes has up to 2,050 digits", "grammar", "MOST_DIGITS = 2_048", "MOST_DIGITS = 2_050")
twin("limits", "seed-less", "the greatest seed is one less", "grammar", '"seed": (0, 1_000_000_000)', '"seed": (0, 999_999_999)')
twin("limits", "limit-zero", "a session may have no request", "grammar", '"limit": (1, 200_000)', '"limit": (0, 200_000)')
twin("limits", "journal-127", "a journal has 127 blocks or more", "grammar", "JOURNAL = (128, 16_384)", "JOURNAL = (127, 16_384)")
twin("limits", "zones-less", "a volume has at most 65,534 blocks", "grammar", "INODES, ZONES = (1, 4_096), (1, 65_535), (1, 65_535)", "INODES, ZONES = (1, 4_096), (1, 65_535), (1, 65_534)")
twin("limits", "events-more", "a script has one event more", "grammar", "MOST_EVENTS = 20_000_000", "MOST_EVENTS = 20_000_001")
twin("limits", "round-of-seven", "a round counts as seven events and its calls", "faults", "times *= int(words[1]) * (len(PARTS) +", "times *= int(words[1]) * (7 +")
twin("limits", "requests-less", "a script has at most 9,999 requests", "grammar", "MOST_REQUESTS = 10_000", "MOST_REQUESTS = 9_999")
twin("limits", "calls-more", "a thread has up to 10,001 calls", "grammar", "MOST_CALLS = 10_000", "MOST_CALLS = 10_001")
twin("limits", "length-less", "one call writes or reads at most 65,535 bytes", "grammar", "LENGTH = (1, 65_536)", "LENGTH = (1, 65_535)")

# Images that are read

twin("images", "table-overlap", "the first zone of data may lie in the tables", "images",
     ' or self.first < end or short', ' or short')
twin("images", "maps-no-spare-bit", "a map may have as many bits as there are inodes or zones, and none more", "images",
     'imap * MAP_BITS < self.inodes + 1 or zmap * MAP_BITS < self.zones - self.first + 1', 'imap * MAP_BITS < self.inodes or zmap * MAP_BITS < self.zones - self.first')
twin("images", "zmap-all-blocks", "the map of the zones has a bit for each block of the volume", "images",
     'zmap * MAP_BITS < self.zones - self.first + 1', 'zmap * MAP_BITS < self.zones + 1')
twin("images", "first-must-be-tight", "the first zone of data comes right after the tables", "images",
     ' or self.first < end or short', ' or self.first != end or short')
twin("images", "zone-log-ignored", "a zone may have more than one block", "images",
     'if scale or not self.inodes', 'if not self.inodes')
twin("images", "features-before-kind", "features are tested before the type of the journal's superblock", "journal",
     '        if int.from_bytes(head[4:8], "big") != SUPER:\n            raise Fault("bad kind", self.base)\n        if incompat & ~(REVOKES_FEATURE | WIDE_FEATURE):\n            raise Fault(f"feature {incompat & ~(REVOKES_FEATURE | WIDE_FEATURE)}", self.base)\n', '        if incompat & ~(REVOKES_FEATURE | WIDE_FEATURE):\n            raise Fault(f"feature {incompat & ~(REVOKES_FEATURE | WIDE_FEATURE)}", self.base)\n        if int.from_bytes(head[4:8], "big") != SUPER:\n            raise Fault("bad kind", self.base)\n')
twin("images", "feature-all-bits", "all features are reported, also those that are known", "journal",
     'raise Fault(f"feature {incompat & ~(REVOKES_FEATURE | WIDE_FEATURE)}", self.base)', 'raise Fault(f"feature {incompat}", self.base)')
twin("images", "first-zero-ok", "the log may begin at the superblock", "journal",
     '0 < self.first < self.end', 'self.first < self.end')
twin("images", "start-at-end-ok", "the start may be the end of the journal", "journal",
     'self.first <= self.start < self.end', 'self.first <= self.start <= self.end')
twin("images", "start-before-first-ok", "the start may lie before the first block of the log", "journal",
     'self.first <= self.start < self.end', 'self.start < self.end')
twin("images", "longer-journal-ok", "a journal may have a block more than there are", "journal",
     ' or self.end > image.count - self.base', ' or self.end > image.count - self.base + 1')
twin("images", "no-seq-wrap", "sequences go on past 2^32", "journal",
     'expected = (self.sequence + len(self.transactions)) % 2**32', 'expected = self.sequence + len(self.transactions)')
twin("images", "super-in-log-ends-not", "a superblock in the log does not end it", "journal",
     'kind not in (DESCRIPTOR, COMMIT, REVOKE)', 'kind not in (DESCRIPTOR, COMMIT, REVOKE, SUPER)')
twin("images", "fault-in-broken-tx", "a bad revoke block counts also where its transaction is not whole", "journal",
     '                listed = self.revoked(block)\n                fault = fault or (Fault("bad count", here) if listed is None else None)\n', "                listed = self.revoked(block)\n                if listed is None: raise Fault('bad count', here)\n")
twin("images", "fault-last", "the last bad descriptor of a transaction is reported", "journal",
     '                if any(not 2 <= home < self.image.zones for home, _ in tags):\n                    fault = fault or Fault("bad count", here)\n', '                if any(not 2 <= home < self.image.zones for home, _ in tags):\n                    fault = Fault("bad count", here)\n')
twin("images", "tag-block-1-ok", "a tag may be for block 1", "journal",
     'not 2 <= home < self.image.zones for home', 'not 1 <= home < self.image.zones for home')
twin("images", "tag-behind-ok", "a tag may be for the block after the volume", "journal",
     'not 2 <= home < self.image.zones for home', 'not 2 <= home <= self.image.zones for home')
twin("images", "tags-run-over-counts", "a descriptor counts whose bodies run over the log's end", "journal",
     '                if at + len(tags) > self.end - self.first:\n                    return\n', '')
twin("images", "high-half-ignored", "the high half of a block number in a wide tag is not read", "journal",
     'home += int.from_bytes(block[at + 8 : at + 12], "big") << 32 if self.wide else 0', 'home += 0')
twin("images", "half-uuid-tag-counts", "a tag counts whose uuid does not fit", "journal",
     '            if at > BLOCK:\n                break\n', '')
twin("images", "flags-32", "a last tag that is escaped does not end the tags", "journal",
     '            if flags & LAST:\n                break', '            if flags == LAST or flags == LAST | SAME_UUID:\n                break')
twin("images", "uuid-never-skipped", "only the first tag has a uuid", "journal",
     'at += length + (0 if flags & SAME_UUID else UUID)', 'at += length + (0 if flags & SAME_UUID or found else UUID)')
twin("images", "revoke-count-from-12", "a revoke block may count from 12 bytes on", "journal",
     'if not 16 <= count <= BLOCK', 'if not 12 <= count <= BLOCK')
twin("images", "revoke-count-any-most", "a revoke block may count half a number", "journal",
     'if not 16 <= count <= BLOCK or (count - 16) % width:', 'if not 16 <= count <= BLOCK:')
twin("images", "revoke-count-more", "a revoke block may count more than 1,024 bytes", "journal",
     'if not 16 <= count <= BLOCK or (count - 16) % width:', 'if not 16 <= count or (count - 16) % width:')
twin("images", "revoke-high-half-ignored", "the high half of a revoked number is not read", "journal",
     'return [int.from_bytes(block[at : at + width], "big") for at in range(16, count, width)]', 'return [int.from_bytes(block[at : at + width], "big") % 2**32 for at in range(16, count, width)]')
twin("images", "escape-ignored", "a body that was escaped stays so", "journal",
     'return JOURNAL_MAGIC + stored[4:] if flags & ESCAPED else stored', 'return stored')
twin("images", "escape-only-if-zeros", "a body is unescaped only where zeros are stored", "journal",
     'return JOURNAL_MAGIC + stored[4:] if flags & ESCAPED else stored', 'return JOURNAL_MAGIC + stored[4:] if flags & ESCAPED and stored[:4] == bytes(4) else stored')
twin("images", "deleted-not-copied", "a body with the flag 4 does not count", "journal",
     'found |= {home: (place, flags) for home, place, flags in bodies}', 'found |= {home: (place, flags) for home, place, flags in bodies if not flags & 4}')
twin("images", "revokes-cancel-later-first", "a revoke cancels no body of its own transaction", "journal",
     '            found |= {home: (place, flags) for home, place, flags in bodies}\n            for block in revokes:\n                found.pop(block, None)\n        return found', '            for block in revokes:\n                found.pop(block, None)\n            found |= {home: (place, flags) for home, place, flags in bodies}\n        return found')
twin("images", "old-super-no-journal", "a superblock of type 3 is no journal", "images",
     'in (OLD_SUPER, SUPER)\n\n    # The', 'in (SUPER,)\n\n    # The')
twin("images", "log-wraps-to-1", "the log goes on at the block behind the superblock", "journal",
     'return self.base + self.first + (self.start - self.first + at) % (self.end - self.first)', 'return self.base + 1 + (self.start - 1 + at) % (self.end - 1)')
twin("images", "root-kind-late", "inode 1 may be no directory", "images",
     '        if number == 1 and not is_directory:\n            raise Fault("bad inode", self.home(number))\n', '')
twin("images", "slot-multiple-16", "the size of a directory is of whole slots of 16 bytes, also with long names", "images",
     'size % calls.slot_bytes(self.names)', 'size % 16')
twin("images", "zone-first-bad", "the first zone of data is none", "images",
     'if not self.first <= zone < self.zones or zone in self.met:', 'if not self.first < zone < self.zones or zone in self.met:')
twin("images", "zone-twice-ok", "a zone may be met twice", "images",
     'if not self.first <= zone < self.zones or zone in self.met:', 'if not self.first <= zone < self.zones:')
twin("images", "slot-inode-zero-last", "a slot may name the inode after the last one", "images",
     'if number > self.inodes or not name', 'if number >= self.inodes + 2 or not name')
twin("images", "slot-order-names", "entries come in the order of their slots", "images",
     '        return [(number, f"{path.rstrip(\'/\')}/{spelled(name)}") for name, number in sorted(found.items())]', '        return [(number, f"{path.rstrip(\'/\')}/{spelled(name)}") for name, number in found.items()]')
twin("images", "slot-dir-at-walk", "a slot may name the root", "images",
     '            if number in self.named:\n                raise Fault("bad slot", zone)\n            self.named.add(number)', '            if number in self.named and number != 1:\n                raise Fault("bad slot", zone)\n            self.named.add(number)')
twin("images", "slots-past-size", "slots past the size count", "images",
     'for place in range(0, min(BLOCK, size - at * BLOCK), width):', 'for place in range(0, BLOCK if at * BLOCK < size else 0, width):')
twin("images", "dot-tested", "a dot is tested where its inode is past the last", "images",
     'if number and name not in (b".", b".."):', 'if number and name not in (b".", b"..") or number > self.inodes:')
twin("images", "spell-tilde", "a space in a name is spelled as it is", "images",
     'if 0x21 <= byte <= 0x7E and byte != 0x5C', 'if 0x20 <= byte <= 0x7E and byte != 0x5C')
twin("images", "spell-del", "the byte 0x7F in a name is spelled as it is", "images",
     'if 0x21 <= byte <= 0x7E and byte != 0x5C', 'if 0x21 <= byte <= 0x7F and byte != 0x5C')
twin("images", "spell-backslash", "a backslash in a name is spelled as it is", "images",
     'if 0x21 <= byte <= 0x7E and byte != 0x5C', 'if 0x21 <= byte <= 0x7E')
twin("images", "links-16", "a file has a link at least", "images",
     'file {path} size {size} links {links}', 'file {path} size {size} links {max(links,1)}')
twin("images", "mode-octal-7", "a mode has as many octal digits as it needs", "images",
     'mode {mode:06o}', 'mode {mode:o}')
twin("images", "missing-block-number", "the last block that is missing is reported", "images",
     'raise Fault("bad geometry", self.count)\n        if self.has', 'raise Fault("bad geometry", self.zones)\n        if self.has')
twin("images", "blocksize-ignored", "the size of the journal's blocks is not tested", "journal",
     'size == BLOCK and 0 < self.first', '0 < self.first')
twin("images", "file-size-not-limited", "a file may have any size", "images",
     'if size > LARGEST or is_directory and', 'if is_directory and size > LARGEST or is_directory and')
twin("images", "size-limit-less", "the greatest size of a node is one byte less", "images",
     'if size > LARGEST or', 'if size >= LARGEST or')

# What `check` says

twin("check", "zone-map-first", "the map of the zones is tested first", "clean",
     '(check.inode_map, check.zone_map, check.links, check.dots)', '(check.zone_map, check.inode_map, check.links, check.dots)')
twin("check", "dots-before-links", "dots are tested before links", "clean",
     '(check.inode_map, check.zone_map, check.links, check.dots)', '(check.inode_map, check.zone_map, check.dots, check.links)')
twin("check", "knows-all-always", "a bit of a zone that none has is wrong also beside nodes of other kinds", "clean",
     'knows_all = self.reached <= {*reader.paths, *reader.listed_in}', 'knows_all = True')
twin("check", "set-bits-not-tested", "a bit of a zone that none has is never wrong", "clean",
     'knows_all = self.reached <= {*reader.paths, *reader.listed_in}', 'knows_all = False')
twin("check", "dir-links-by-names", "a directory has a link for each name in it", "clean",
     'wanted = 2 + sum(child in self.reader.listed_in for child in self.reader.listed_in[inode][2].values())', 'wanted = 2 + len(self.reader.listed_in[inode][2])')
twin("check", "root-links-more", "the links of the root are not tested", "clean",
     '            if self.reader.inode(inode)[2] != wanted:', '            if self.reader.inode(inode)[2] != wanted and inode != 1:')
twin("check", "dots-size-not-tested", "a directory may have fewer than two slots", "clean",
     'if size < 2 * width or slots !=', 'if slots !=')
twin("check", "dots-only-dot", "the second dot is not tested", "clean",
     'slots != [(inode, b"."), (self.parents[inode], b"..")]', 'slots[0] != (inode, b".")')
twin("check", "dots-swapped-ok", "the dots may stand in either order", "clean",
     'slots != [(inode, b"."), (self.parents[inode], b"..")]', 'sorted(slots, key=lambda s: s[1]) != [(inode, b"."), (self.parents[inode], b"..")]')
twin("check", "dots-hole-block", "wrong dots in a hole are reported at the next zone", "clean",
     'mapped.get(0, self.reader.home(inode))', 'mapped.get(0, min(mapped.values(), default=self.reader.home(inode)))')
twin("check", "dots-by-walk-order", "dots are tested in the order of the walk", "clean",
     'for inode, (mapped, size, _) in sorted(self.reader.listed_in.items()):', 'for inode, (mapped, size, _) in self.reader.listed_in.items():')
twin("check", "inode-last-not", "the bit of the last inode is not tested", "clean",
     'for inode in range(1, self.reader.inodes + 1):', 'for inode in range(1, self.reader.inodes):')
twin("check", "zone-last-not", "the bit of the last zone is not tested", "clean",
     'for zone in range(reader.first, reader.zones):', 'for zone in range(reader.first, reader.zones - 1):')
twin("check", "zone-bit-off", "zones have bits from 0 on", "clean",
     'zone - reader.first + 1)', 'zone - reader.first)')
twin("check", "other-links-not", "the links of nodes of other kinds are not tested", "clean",
     '        for inode in sorted(self.reached):\n', '        for inode in sorted(self.reached & {*self.reader.paths, *self.reader.listed_in}):\n')
twin("check", "inode-bit", "the bit of an inode that no name leads to is never wrong", "clean",
     'if bit != (inode in self.reached):', 'if not bit and inode in self.reached:')

# Stores

twin("stores", "ack-at-begin", "a put right before a flush is not acknowledged by it", "stores",
     '            last = puts', '            last = puts - 1 if puts else 0')
twin("stores", "ack-any-flush", "a flush acknowledges also where it did not end as ok", "stores",
     'if answer.startswith("1 fdatasync ") and answer.endswith(": ok"):', 'if answer.startswith("1 fdatasync "):')
twin("stores", "ack-ok-puts", "only puts whose write was answered with ok are acknowledged", "stores",
     'puts += answer.startswith("1 bytes ")', 'puts += answer.startswith("1 bytes ") and answer.endswith(": ok")')
twin("stores", "ack-by-barriers", "a put has ended with its barrier", "stores",
     'puts += answer.startswith("1 bytes ")', 'puts += answer.startswith("1 fdatabarrier ")')
twin("stores", "ack-first-fsync", "the fsync of the log acknowledges too", "stores",
     'if answer.startswith("1 fdatasync ") and answer.endswith(": ok"):', 'if answer.startswith(("1 fdatasync ", "1 fsync ")) and answer.endswith(": ok"):')
twin("stores", "first-value", "a key has the value of its first put", "stores",
     'sorted(dict(held).items())', 'sorted(dict(reversed(held)).items())')
twin("stores", "insertion-order", "keys come in the order of their first puts", "stores",
     'for key, value in sorted(dict(held).items())', 'for key, value in dict(held).items()')
twin("stores", "number-not-tested", "a block counts whatever its number", "stores",
     'if put is None or put[0] != number:', 'if put is None:')
twin("stores", "zeros-not-tested", "a block counts whatever stands behind its value", "stores",
     ' or block(number, key, value) != body:', ' or False:')
twin("stores", "held-goes-on", "the log goes on behind a block that is no put", "stores",
     '            break\n        found.append', '            continue\n        found.append')
twin("stores", "zones-15", "the volume has N + 15 blocks", "stores",
     'zones {room + 16}', 'zones {room + 15}')
twin("stores", "zones-20", "the volume has N + 20 blocks", "stores",
     'zones {room + 16}', 'zones {room + 20}')
twin("stores", "inodes-64", "the volume has 64 inodes", "stores",
     'volume inodes 32', 'volume inodes 64')
twin("stores", "fill-fdatasync", "the log is synced by fdatasync at first", "stores",
     'calls.append("fsync /log")', 'calls.append("fdatasync /log")')
twin("stores", "key-33", "a key has up to 33 letters", "stores",
     '{1,32}")', '{1,33}")')
twin("stores", "value-201", "a value has up to 201 letters", "stores",
     '{1,200}")', '{1,201}")')
twin("stores", "key-colon", "a key may have a colon", "stores",
     '[A-Za-z0-9._-]"', '[A-Za-z0-9._:-]"')
twin("stores", "put-calls-one", "a put counts as one call", "stores",
     '            self.more(2)\n', '            self.more(1)\n')
twin("stores", "calls-without-fill", "the calls that fill the log do not count", "stores",
     'self.calls = len(calls_of(self.room, []))', 'self.calls = 0')
twin("stores", "fill-32k", "the log is filled by 32,768 bytes a call", "stores",
     'FILL = LENGTH[1]', 'FILL = 32_768')
twin("stores", "room-1001", "a store has up to 1,001 blocks", "grammar",
     'MOST_ROOM = 1_000', 'MOST_ROOM = 1_001')

# Widening

twin("widening", "log-stays", "the journal keeps its log", "widening", "        if journal and journal.start:\n", "        if journal and not journal.start:\n")
twin("widening", "sequence-early", "the recovered journal goes on with the sequence that was missing", "widening",
     "len(journal.transactions) + 1) % 2**32", "len(journal.transactions)) % 2**32")
twin("widening", "long-anew", "an image with long names is written anew too", "widening", "if self.reader.names == LONG_NAMES:", "if self.reader.names == 0:")
twin("widening", "magic-stays", "the magic number stays", "widening", "if width == LONG_NAMES)", "if width == self.reader.names)")
twin("widening", "names-unsorted", "names stand in the order of their slots", "widening", "sorted(self.reader.listed_in[inode][2].items())", "list(self.reader.listed_in[inode][2].items())")
twin("widening", "parent-is-root", "each directory has the root for its parent", "widening", 'self.rewrite(inode, parents[inode], free)', 'self.rewrite(inode, 1, free)')
twin("widening", "bits-stay", "the bits of zones that are taken stay 0", "widening", "            self.mark(zone, True)\n", "            self.mark(zone, False)\n")
twin("widening", "freed-bits-stay", "the bits of zones that are not needed any more stay", "widening", "            self.mark(zone, False)\n", "            self.mark(zone, True)\n")
twin("widening", "marked-zone-taken", "a zone that nothing has is taken also where its bit is 1", "widening", " and not self.data[at] & bit", "")
twin("widening", "highest-zone", "the highest free zone is taken first", "widening", "free.pop(0)", "free.pop()")
twin("widening", "size-of-16", "the size counts 16 bytes for each slot", "widening", "WIDTH * len(slots)", "16 * len(slots)")

#!/usr/bin/env python3
"""Compares the calls that may want memory with those that crates/druid_refusal_tests makes between its marks.

A call may want memory where it is public, its crate exports it, and its result has `AllocError`, an enum of faults with a member
`Memory`, or one of the faults of AS_DEVICE. Those calls are read out of the sources of all libraries; the names of those that are made, out
of the lines `assert_call(rt, "..")` of the tests. The status is 1 where one is made by no test and stands not in LEFT_OUT, or is made and
stands there, or a name is of no call.
"""
import glob
import os
import re
import sys

sys.path.insert(0, os.path.dirname(os.path.dirname(os.path.abspath(__file__))))
from served import TOP, parser_of  # noqa: E402

NO_ALLOCATOR = 'takes no allocator and owns none'
BY_CALLER = 'its condition holds only within the call that makes it: '
NEVER = 'allocates nothing, and its contract gives no fault of memory'
WITHIN = 'all that it allocates is allocated within: '
COPIES = 'copies lists of descriptors as Assembly::take does, which is called, and changes nothing'
DEVICE = 'reaches the system, whose own faults come first; by tests with a device that fails'
BY_REPLAY = 'by replay.py, over the built program'
AT_START = 'opens a log, as log::open does, which is called, and starts a thread: only the program, at its start, makes it'
# By these a call reports that memory ran out as a device that failed, or as a route that cannot be added.
AS_DEVICE = {'DeviceFailed', 'Ending', 'InsertError', 'ReplayFault', 'ReplayStop', 'StartFault', 'Stop'}
LEFT_OUT = {
    'druid_query_slice_text::are_apart': BY_CALLER + 'read_subquery',
    'druid_query_slice_text::asked_list': BY_CALLER + 'read_subquery',
    'druid_base::copy_text': WITHIN + 'Aggregator::new, Segment::row',
    'druid_base::parse_json': WITHIN + 'read_reply, read_query',
    'druid_broker::Routes::new': WITHIN + 'serve',
    'druid_sync_history::History::refusal_of_drop': NEVER,
    'druid_sync_history::History::refusal_of_load': NEVER,
    'druid_replay::replay': BY_REPLAY,
    'druid_replay::replay_explained': BY_REPLAY,
    'druid_serve_config::config_of': BY_CALLER + 'read_config',
    'druid_broker_follow::observed_turn': WITHIN + 'shared_turn',
    'druid_link_health::Health::note': NO_ALLOCATOR,
    'druid_link_health::Health::note_cut': NO_ALLOCATOR,
    'druid_link_health::MonitoredLink::exchange': WITHIN + 'MemoryLink::exchange',
    'druid_inventory::Assembly::clone': COPIES,
    'druid_link::TcpLink::exchange': DEVICE,
    'druid_link::receive_some': WITHIN + 'TcpLink::exchange',
    'druid_link::send_all': NO_ALLOCATOR,
    'druid_node::DataNode::load_identified': WITHIN + 'DataNode::load_file',
    'druid_node::DataNode::load_segment': WITHIN + 'DataNode::load_file',
    'druid_node::decode_file': WITHIN + 'DataNode::load_file',
    'druid_sync_pages::Assembly::clone': COPIES,
    'druid_sync_pages::Assembly::take': WITHIN + 'inventory::Assembly::take',
    'druid_program::run': BY_REPLAY,
    'druid_program::serve_config': WITHIN + 'serve, replay_explained',
    'druid_program::start_log': AT_START,
    'druid_query::Query::new': BY_CALLER + 'read_query',
    'druid_serve_base::Source::open': 'made by fronts::of_sources, which looks at the listener that is left, too',
    'druid_serve_base::start_status': WITHIN + 'start_node, serve',
    'druid_segment_descriptor::Reply::page': NEVER,
    'druid_segment_descriptor::apply_change': BY_CALLER + 'History::record, Inventory::advance',
    'druid_segment_text::DescriptorRef::of': NO_ALLOCATOR,
    'druid_segment_text::DescriptorRef::to_owned_in': WITHIN + 'read_descriptor, reply_of',
    'druid_segment_text::SharedTexts::with_capacity': WITHIN + 'reply_of',
    'druid_segment_text::shard_value': WITHIN + 'descriptor_value',
    'druid_folder_store::DiskFolder::list': DEVICE,
    'druid_folder_store::DiskFolder::read': DEVICE,
    'druid_folder_store::DiskFolder::remove': DEVICE,
    'druid_folder_store::DiskFolder::rename': DEVICE,
    'druid_folder_store::DiskFolder::sync': DEVICE,
    'druid_folder_store::DiskFolder::write': DEVICE,
    'druid_timeline::Holding::add_absent': WITHIN + 'Inventory::apply',
    'druid_timeline::Holding::into_timeline': WITHIN + 'Inventory::apply',
    'druid_timeline::Holding::of': WITHIN + 'Inventory::apply',
    'druid_timeline::Holding::remove_present': WITHIN + 'Inventory::apply',
    'druid_timeline::Timeline::add_absent': WITHIN + 'Timeline::add',
    'druid_timeline::Timeline::remove_present': WITHIN + 'Timeline::remove',
    'druid_timeline::Transaction::add_absent': WITHIN + 'Transaction::add',
    'druid_timeline::Transaction::remove_present': WITHIN + 'Transaction::remove',
    'druid_http_wire::Response::into_parts': WITHIN + 'NodeState::respond',
    'druid_http_wire::refuse_request': NO_ALLOCATOR,
    'druid_http_wire::response_of': NO_ALLOCATOR,
    'druid_http_wire::send_response': NO_ALLOCATOR,
    'druid_http_wire::write_request': NO_ALLOCATOR,
    'druid_http_wire::write_response': NO_ALLOCATOR,
}


def sources():
    """The text of each file of each library, by crate."""
    for path in sorted(glob.glob(os.path.join(TOP, 'crates', 'druid_*', 'src', '*.rt'))):
        crate = path.split(os.sep)[-3]
        if not crate.endswith('_tests'):
            with open(path, encoding='utf-8') as file:
                yield crate, file.read()


def wanting(texts):
    """The types of faults that out of memory is one of."""
    found = {'AllocError', 'MergeRefused', *AS_DEVICE}
    for _, text in texts:
        for name, members in re.findall(r'pub enum (\w+)[^{]*\{(.*?)\n\}', text, re.S):
            if re.search(r'^    Memory\b', members, re.M) and name.endswith('Fault'):
                found.add(name)
    return found


def exported(texts):
    """The names that each crate exports."""
    names = {}
    for crate, text in texts:
        for group in re.findall(r'^pub use [\w:]+::(\{[^}]*\}|\w+);', text, re.M):
            names.setdefault(crate, set()).update(re.findall(r'\w+', group))
    return names


def calls(texts):
    """The calls that may want memory: `crate::Type::call` or `crate::call`."""
    faults, names = wanting(texts), exported(texts)
    head = re.compile(r'^( *)(pub )?fn (\w+)(.*?)(?=\n *(?:requires|ensures|where|\{)|;|\{)', re.S | re.M)
    for crate, text in texts:
        for found in head.finditer(text):
            indent, is_pub, name, rest = found.groups()
            answer = ' '.join(rest.split()).rpartition('-> ')[2]
            given = {it for it in faults if re.search(rf'\b{it}\b', answer)}
            # (who only makes a fault, or opens a socket, allocates nothing)
            if not given or given <= AS_DEVICE and not ('alloc: ' in rest and (answer.startswith('Result') or answer == 'Ending')):
                continue
            if not indent:
                if is_pub and name in names.get(crate, ()):
                    yield f'{crate}::{name}'
                continue
            blocks = list(re.finditer(r'^(?:impl|pub trait)\b[^{]*', text[:found.start()], re.M))
            block = blocks[-1].group() if blocks else ''
            trait = block.rpartition(' for ')[0]
            if block.startswith('pub trait') or re.search(r'\b(From|Absorb|TryFrom)\b', trait):
                continue
            if trait or is_pub:
                owner = block.rpartition(' for ')[2] if trait else re.sub(r'^impl(<.*?>+)? ', '', block)
                owner = re.match(r'\w+', owner.strip()).group()
                if owner in names.get(crate, ()):
                    yield f'{crate}::{owner}::{name}'


def made():
    """The names that tests give of the calls that they make."""
    for path in glob.glob(os.path.join(TOP, 'crates', 'druid_refusal_tests', 'src', '*.rt')):
        with open(path, encoding='utf-8') as file:
            text = file.read()
        # One with a blank is of what is looked at after a call.
        yield from re.findall(r'assert_call\(\s*&?rt,\s*"([^" ]+)"', text)


def is_made(call, names, all_calls):
    """Whether a call has one of these names: that of its crate stands before it where another crate has a call of its name."""
    crate, _, name = call.partition('::')
    alone = sum(other.partition('::')[2] == name for other in all_calls) == 1
    return alone and name in names or f'{crate.removeprefix("druid_")}::{name}' in names


def main():
    parser_of(__doc__).parse_args()
    texts = list(sources())
    all_calls, names = sorted(set(calls(texts))), set(made())
    left = [call for call in all_calls if call in LEFT_OUT]
    missing = [call for call in all_calls if call not in LEFT_OUT and not is_made(call, names, all_calls)]
    unknown = [name for name in sorted(names) if not any(is_made(call, {name}, all_calls) for call in all_calls)]
    gone = [call for call in LEFT_OUT if call not in all_calls]
    doubled = [call for call in left if is_made(call, names, all_calls)]
    for what, which in [('NOT MADE', missing), ('NO SUCH CALL', unknown), ('LEFT OUT AND NOT THERE', gone), ('LEFT OUT AND MADE', doubled)]:
        for name in which:
            print(what, name)
    print(f'{len(all_calls)} calls may want memory: {len(all_calls) - len(left) - len(missing)} are made, {len(left)} are left out, {len(missing)} are not made')
    return 1 if missing or unknown or gone or doubled else 0


if __name__ == '__main__':
    sys.exit(main())

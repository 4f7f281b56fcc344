"""What tools/checks/texts lets pass, each with its reason. What is named here and needs it no more fails too."""

# Names that two specifications define, by the modules that do.
SAME_NAMES = {
    # A word for sets of lists and the same one for maps, the second defined by the first.
    "nibble_map Answers, nibble_map MapQueries":
        "AreChildren IsAncestor IsChild IsCompared IsFragment IsRawAncestor IsRawDescendant IsVisited",
    "nibble_map Maps, nibble_map Points": "IsBranchPoint IsPoint IsReached IsSomePrefix",
    # A word for rows of lists and the same one for maps.
    "nibble_map Maps, nibble_map Stored": "IsStored below",
    # Each program says this of its own lines, and no source reads two of them.
    "route_tool Sessions, trie_tool Request": "GivesUp IsBad Replies bad_unanswered",
    "route_tool Reasons, trie_tool Request": "IsRemarkOf",
    "route_tool Numbers, trie_tool Request": "Numbers",
    "route_tool Requests, trie_tool Request": "Request",
    "route_tool Answers, trie_tool Request": "below_answer row",
    "route_tool Commands, trie_tool Request": "request_of",
    "nibble_map Rows, trie_tool Numbers": "text",
    # One is the other, of pairs in place of nodes' keys and values.
    "radix_nodes Values, radix_trie Values": "LeavesAtPair",
}

# The functions that do the work of calls with no wrong body of their own, and have one: where the crate is named, one
# of a crate below. For integers it is that of another type, by the same text; for Trie::len, what counts its field; for
# FrozenRoutes::into_rows, what lends the field that is its whole body.
STANDS_FOR = {
    "least_routes": "Route::precedes for is_table; Plan::of for least",
    "line_sessions": "drive for serve",
    "frozen_routes": "FrozenRoutes::rows for FrozenRoutes::into_rows",
    "frozen_trie": "absent_as_none for FrozenTrie::get_mut; change for FrozenTrie::for_each_mut; "
                   "read_all for FrozenTexts::read",
    "radix_keys": "U32KeyInt::byte for U8TrieKey::encode U16TrieKey::encode U32TrieKey::encode U64TrieKey::encode "
                  "UsizeTrieKey::encode; "
                  "I16KeyInt::byte for I8TrieKey::encode I16TrieKey::encode I32TrieKey::encode I64TrieKey::encode "
                  "IsizeTrieKey::encode; "
                  "U128KeyInt::byte for U128TrieKey::encode; I128KeyInt::byte for I128TrieKey::encode; "
                  "NibbleVec::from_slice for StringTrieKey::encode RefStrTrieKey::encode RefSliceU8TrieKey::encode "
                  "NibbleVec::from_byte_vec; "
                  "NibbleVec::len for NibbleVec::is_empty; NibbleVecClone::clone for NibbleVec::clone; "
                  "NibbleVec::tail_shifted for NibbleVec::tail; Parts::push_bytes for Parts::push; "
                  "PartsIterIterator::next for Parts::iter",
    "radix_trie": "Trie::new for Trie::default; Trie::take_entry_at for Trie::len; Trie::not_kept for Trie::retain; "
                  "Trie::fill for Trie::get_or_insert; value_at_list for Entry::get_mut; "
                  "Locus::children for Trie::children SubTrie::children SubTrieMut::children; "
                  "value_behind for SubTrieMut::value_mut; absent_as_none for Trie::get_mut; "
                  "closed_as_none for Trie::subtrie_mut; key_within for SubTrieMut::key; "
                  "value_within for SubTrieMut::value; first_within for SubTrieMut::first_key_value; "
                  "last_within for SubTrieMut::last_key_value; SubTrieMut::insert for TrieEdit::insert; "
                  "SubTrieMut::remove for TrieEdit::remove; SubTrieMut::retain for TrieEdit::retain; "
                  "SubTrieMut::remove_prefix for TrieEdit::remove_prefix",
    "trie_tool": "keyed for parse; line_sessions drive for serve; "
                 "radix_trie Trie::insert for Numbers::insert; radix_trie Trie::get for Numbers::get; "
                 "radix_trie Trie::remove for Numbers::remove; radix_trie Trie::remove_prefix for Numbers::prune; "
                 "radix_trie Trie::footprint for Numbers::footprint; radix_trie AnyTrieCommon::iter for Numbers::all; "
                 "write_members for add_object",
    "route_tool": "line_sessions run for answer_all answer_each; wrong_with_text for wrong_with; Routes::find for Routes::look; "
                  "radix_trie Trie::compact for Routes::compact; radix_trie AnyTrieCommon::cursor for Routes::rest; "
                  "radix_trie Trie::get_raw_descendant for Routes::below; open_family for open Routes::of_rows",
}

# Calls with no wrong body, by the reason.
NO_EDIT = {
    "it ends a borrow, and does nothing else": {"radix_trie": "Entry::drop SubTrieMut::drop"},
    "it returns a field or makes what it is from one, and nothing else of that type is at hand": {
        "line_sessions": "Patient::new WatchedReader::new WatchedWriter::new",
        "frozen_trie": "FrozenTexts::new FrozenTrie::new",
        "frozen_routes": "FrozenRoutes::new",
        "radix_keys": "Bits::as_list Bits::into_list BigEndian::value LittleEndian::value Ascending::value "
                      "Network::base Network::bits NibbleVec::new Parts::new",
        "radix_trie": "Entry::key SubTrie::path SubTrieMut::path SubTrieMut::into_trie PathList::nibbles "
                      "PathList::into_nibbles",
        "trie_set": "TrieSet::new TrieSet::from_trie TrieSet::into_trie TrieSet::as_trie",
        "trie_tool": "Numbers::new",
        "route_tool": "Hop::as_bytes Frozen::new Frozen::of_rows Frozen::rows Routes::new Table::new",
    },
    "it is a trait's, and each program has a body of its own": {"line_sessions": "Program::answer"},
}

# Errors that no test makes out of a call, by the reason.
UNTRIED = {
    "no memory holds so many pairs or rows": {
        "radix_trie": "Trie::insert.Full Trie::map_with_default.Full Trie::get_or_insert.Full Trie::try_insert.Full "
                      "Trie::from_iter.Full Trie::extend.Full Trie::graft.Full Entry::insert.Full Entry::or_insert.Full "
                      "Entry::or_insert_with.Full SubTrieMut::insert.Full",
        "frozen_trie": "freeze.Full frozen_copy.Full", "frozen_networks": "freeze.Full frozen_copy.Full",
        "flat_routes": "write.Full merge.Full", "flat_texts": "write.Full",
        "trie_set": "TrieSet::insert.Full"},
    "refused memory alone makes it, which the sessions refused_*.txt try": {"radix_trie": "Trie::merge.Stopped"},
    "it is of another call, whose errors have the same type": {
        "flat_routes": "Table::open.Cell Table::open.Span", "flat_texts": "check.Span",
        "flat_tries": "from_image.Shared from_image.Value"},
    "clauses alone tell of it: the call has the tests of its neighbour for numbers": {
        "flat_tries": "to_image_of_values.Odd from_image_of_values.Image from_image_of_values.Key"},
}

# Labels of exports that say what those of the calls behind them do, which return an index, or a place, or None.
OTHER_LABELS = {"nifazombi_payload": "found for part", "nifazombi_texts_above": "within for before",
                **{f"nifazombi_{of}_len": "within for stored" for of in ("ipv4", "ipv6")},
                **{f"nifazombi_{of}_check": "image for ok" for of in ("ipv4", "ipv6")},
                **{f"nifazombi_{of}_{it}": "image for written" for of in ("ipv4", "ipv6") for it in ("write", "merge")},
                **{f"nifazombi_{of}_row_at": "row for narrow" for of in ("ipv4", "ipv6")}}

# Functions that make an error for memory where no call was refused: a tree of more levels than `usize` counts, which
# no memory holds; encodings of 2^31 bytes; a network with bits behind its first ones, which there is none of; and what
# the system says of a file.
MADE_REFUSALS = {"radix_trie": "row_height", "encoded_keys": "push", "frozen_trie": "append_to", "whole_files": "from"}

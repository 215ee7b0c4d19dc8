#!/usr/bin/env bash
# What the types alone refuse: each snippet here must not compile, with the named error. No proof is tried.
#
# A capability can be made from the root of a mapping alone, and a root from a span of addresses, which can be neither
# copied nor let go. A memory can be made from a root alone, and a tag is set by a capability alone.
set -u
cd "$(dirname "$0")/.." || exit 2
. tests/beside.sh
beside pin "cap_base cap_conc cap_own cap_mem" cap_base cap_conc cap_own cap_mem

failed=0

# refuse ERROR NAME: the code on standard input must be refused with this error
refuse() {
    { printf '#![tactic(auto)]\n\n'; cat; } > "$folder/crates/pin/src/lib.rt"
    if (cd "$folder/crates/pin" && rt check --only= > "$folder/log" 2>&1); then
        echo "compiles: $2"
        failed=1
    elif grep -q "error\[$1\]" "$folder/log"; then
        echo "refused ($1): $2"
    else
        echo "refused otherwise: $2"
        grep -m 5 'error' "$folder/log"
        failed=1
    fi
}
refuse private-field "a capability with fields of one's own" <<'CODE'
use cap_own::{Derived, Perms, Root};

pub fn forge(root: &Root) -> Derived<'_> {
    Derived {
        root,
        base: 0,
        len: 16,
        cursor: 0,
        perms: Perms::DATA,
        flag: false,
        sealed: false,
    }
}
CODE

refuse private-field "a part of a mapping with bounds of one's own" <<'CODE'
use cap_own::{Perms, Root, Seg};

pub fn forge(root: &Root) -> Seg<'_> {
    Seg {
        root,
        base: 0,
        len: 16,
        perms: Perms::DATA,
        flag: false,
    }
}
CODE

refuse private-field "a mapping that no object has" <<'CODE'
use cap_own::{Root, Span};

pub fn forge(span: Span) -> Root {
    Root { span, owner: 0 }
}
CODE

refuse private-field "a span of addresses that no space gave" <<'CODE'
use cap_own::Span;

pub fn forge() -> Span {
    Span { base: 0, len: 4096 }
}
CODE

refuse unsupported-method "a second owner of a span" <<'CODE'
use cap_own::Span;

pub fn double(span: &Span) -> Span {
    span.clone()
}
CODE

refuse linear-value-let-go "a span that is let go" <<'CODE'
use cap_own::Span;

pub fn lose(span: Span) -> u64 {
    span.len()
}
CODE

refuse linear-value-let-go "a root that is let go" <<'CODE'
use cap_own::Root;

pub fn lose(root: Root) -> u64 {
    root.len()
}
CODE

refuse private-field "a memory with tags of one's own" <<'CODE'
use cap_mem::Memory;

pub fn forge(bytes: Vec<u8>, tags: Vec<u64>) -> Memory {
    Memory {
        base: 0,
        bytes,
        tags,
    }
}
CODE

refuse private-field "a tag that is set by hand" <<'CODE'
use cap_mem::Memory;

pub fn forge(memory: &mut Memory, tags: Vec<u64>) {
    memory.tags = tags;
}
CODE

refuse private-field "other bytes under a tag" <<'CODE'
use cap_mem::Memory;

pub fn forge(memory: &mut Memory, bytes: Vec<u8>) {
    memory.bytes = bytes;
}
CODE

refuse mismatched-types "a word that is stored as a capability" <<'CODE'
use cap_conc::Word;
use cap_mem::Memory;

pub fn forge(memory: &mut Memory, word: Word) {
    memory.store_cap(0, word, 0);
}
CODE

exit $failed

#!/bin/sh
# Lists the places of each point in src/: sh tools/places.sh [POINT]
cd "$(dirname "$0")/.." || exit 1
files=$(find crates/*/src -name '*.rt' | sort)
list() { # point, pattern
    [ -n "$only" ] && [ "$only" != "$1" ] && return
    echo "== point $1: $(grep -nE "$2" $files | wc -l)"
    grep -nE "$2" $files
}
only=$1
list 1 'Result<bool>|-> bool$|accepted: bool|Result<[^<>]*, usize>|Option<usize>|kind: u8|table: u8|u8\)|TooLargeAt\(pub|usize, usize\)'
list 2 '^pub struct (Tables|Ours|Equity|Market|Life|Health|NonLife|PremiumReserve|Amounts|Pairs)\b|^pub trait Choice|fn (figures_by|beside|percentages|least|tables|table|run|main|market_module|life_module|health_module|nonlife_module)\b|^pub const BOOK|^const (BASIC|MARKET|EQUITY|LIFE|HEALTH|NON_LIFE|BUSINESS|LIMIT|LARGEST|SQUARED|MOST_LINES|USAGE)\b|^(pub )?type (Two|Three|Five|Six|Seven)'
list 3 'for [a-z_]+ in [0-9a-z_.()]+\.\.|while let|\.enumerate\(\)'
list 4 'fn (numbered|number|fields|shown|amount_fault|entry_fault|entries_fault|tell|told|named)\b|^impl.*(Display|From|TryFrom|PartialEq|Ord|Clone|Copy)\b.* for|Ok\(b\) => Ok\(b\)|Ok\(\(\)\) => Ok\(\(\)\)'
list 5 'totals: &Totals|requires (make|shown|basic|few|small)|Tally totals'
list 6 '\[[a-z0-9]+; [0-9]+\],?$|len: usize|count: usize|\[u64; 512\]|firsts: Sums|seconds: Sums|counts: Sums'
list 7 'enum (Kind|Side)\b|fn (is_of|of|run|side)\('

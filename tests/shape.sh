#!/usr/bin/env bash
# Counts what is to be smaller in this checkout, with the places, each figure beside what is wanted of it: enums of refusals,
# loops over the records of chunks, relations of many arguments, names that are defined twice, long lines of clauses, lines of
# specs and proofs, long functions. It reads the text alone, knows it by how `rt fmt` lays it out, and judges nothing: its
# status is 0 whatever it finds. The crates of tests (`*_tests`, `run_cases`) and files named `tests.rt` aren't counted, but
# in the lines of specs and proofs. It needs perl, and takes a second or two.
set -e
export LC_ALL=C
here="$(cd "$(dirname "$0")" && pwd)"
if ! command -v perl >/dev/null; then
    echo "tests/shape.sh: skipped, perl is not there (Debian: perl-base)"
    exit 0
fi
cd "$here/.."

perl - <<'END' || echo 'tests/shape.sh: the count ended early'
use strict;
use warnings;
use utf8;
use open qw(:std :encoding(UTF-8));

# The files under a folder whose names end so, without what a check makes.
sub files_under {
    my ($folder, $ending) = @_;
    my (@found, @inside);
    opendir(my $dir, $folder) or return ();
    for my $name (sort grep { !/^\./ && $_ ne 'out' } readdir $dir) {
        my $path = "$folder/$name";
        if (-d $path) { push @inside, files_under($path, $ending); }
        elsif ($name =~ /\Q$ending\E$/) { push @found, $path; }
    }
    return (@found, @inside);
}

my %read;
sub lines_of {
    my ($file) = @_;
    if (!$read{$file}) {
        open(my $in, '<', $file) or die "tests/shape.sh: $file: $!\n";
        chomp(my @lines = <$in>);
        $read{$file} = \@lines;
    }
    return @{$read{$file}};
}

sub is_of_tests { return $_[0] =~ m{^crates/(?:\w+_tests|run_cases)/|/tests\.rt$}; }

# A figure, what is wanted of it, and its places.
sub figure {
    my ($what, $number, $wanted, @places) = @_;
    print "$what: $number" . ($wanted eq '' ? '' : " ($wanted)") . "\n";
    print "    $_\n" for @places;
}

my @all_sources = map { files_under("$_/src", '.rt') } sort glob 'crates/*';
my @sources = grep { !is_of_tests($_) } @all_sources;
my @all_specs = map { files_under("$_/specs", '.antt') } sort glob 'crates/*';
my @specs = grep { !is_of_tests($_) } @all_specs;
my @proofs = map { files_under("$_/proofs", '.antt') } sort glob 'crates/*';

# ---- enums of refusals

# An enum is one if its name ends in Refused, or if at least two of its variants are of these: why a reading or a writing didn't
# go through, and why an intake takes no message.
my %is_reason = map { $_ => 1 } qw(Fault Failed Grammar Flaw Flawed Breaks Compressed Limit FileLimit Memory NoMemory
    NotIndexed NoSummary);
my %is_reason_of_intake = map { $_ => 1 } qw(Full TooLarge TooManySchemas TooManyChannels TooManyRecords UnknownChannel);

# The names of the variants in the text between the braces of an enum.
sub variants_of {
    my ($text) = @_;
    $text =~ s/#\[[^\]]*\]//g;
    1 while $text =~ s/\{[^{}]*\}//g;
    1 while $text =~ s/\([^()]*\)//g;
    return $text =~ /(\w+)\s*(?:=[^,]*)?(?:,|\s*$)/g;
}

sub enums_of {
    my ($file) = @_;
    my $text = join "\n", map { s{//.*}{}r } lines_of($file);
    my @enums;
    while ($text =~ /^ *(?:pub(?:\([\w: ]+\))? +)?enum +(\w+)[^{]*(\{(?:[^{}]++|(?2))*\})/mg) {
        my ($name, $body) = ($1, $2);
        push @enums, [$name, variants_of(substr($body, 1, -1))];
    }
    return @enums;
}

sub count_refusals {
    my (@named, @others, $shared);
    for my $file (@sources) {
        for my $enum (enums_of($file)) {
            my ($name, @variants) = @$enum;
            my @reasons = grep { $is_reason{$_} } @variants;
            my $has_two = (grep { $is_reason{$_} || $is_reason_of_intake{$_} } @variants) > 1;
            next if $name !~ /Refused$/ && !$has_two;
            $shared++ if @reasons > 1;
            my ($crate) = $file =~ m{^crates/(\w+)};
            push @{$name =~ /Refused$/ ? \@named : \@others}, sprintf('%-18s %-16s %s', $crate, $name, join ' ', @variants);
        }
    }
    figure('enums of refusals, named *Refused', scalar @named, 'floor: 10', @named);
    figure('other enums with at least two such reasons', scalar @others, '', @others);
    figure('of all these, with at least two reasons of a reading or a writing', $shared // 0, '');
}

# ---- loops over the records of chunks

# The name of the function that a line stands in.
sub function_at {
    my ($file, $at) = @_;
    my @lines = lines_of($file);
    for (my $i = $at; $i >= 0; $i--) {
        return $1 if $lines[$i] =~ /^ *(?:pub(?:\([\w: ]+\))? +)?(?:const +|unsafe +)*fn +(\w+)/;
    }
    return '?';
}

sub places_with {
    my ($pattern) = @_;
    my @places;
    for my $file (@sources) {
        my @lines = lines_of($file);
        for my $i (0 .. $#lines) {
            next if $lines[$i] =~ m{^\s*//} || $lines[$i] !~ $pattern;
            push @places, "$file:" . ($i + 1) . ' ' . function_at($file, $i);
        }
    }
    return @places;
}

# The walk's own: what all others go over, and the judging of a chunk, behind which it gives the records inside. And a walk over
# records that stand behind a chunk, not inside one.
sub is_own_walk { return $_[0] =~ m{^crates/(?:mcap_scan/|mcap_model/src/chunks\.rt)| keep_indexes$}; }

sub count_walks {
    my @walks = places_with(qr/\bInnerWalk::new\(/);
    my @own = grep { is_own_walk($_) } @walks;
    my @others = grep { !is_own_walk($_) } @walks;
    figure('walks over the records of chunks by hand, each an InnerWalk::new', scalar @others, 'floor: 2', @others);
    figure('besides, the walk itself, the judging of a chunk, and one over Message Indexes', scalar @own, '', @own);
    my @parses = places_with(qr/\bMessage::parse\(/);
    figure('messages parsed, each a Message::parse', scalar @parses, '', @parses);
}

# ---- relations of many arguments

# How many explicit arguments the binders in front of a text have, and the text behind them.
sub binders {
    my ($text) = @_;
    my $count = 0;
    while ($text =~ s/^\s*(\((?:[^(){}]++|(?1)|(?2))*\)|(\{(?:[^(){}]++|(?1)|(?2))*\}))//) {
        my $group = $1;
        if ($group =~ /^\(([^():{}]+) : /) { $count += () = $1 =~ /\S+/g; }
        elsif ($group !~ /^\{/) { return ($count, $group . $text); }
    }
    return ($count, $text);
}

# The parts of a type between its own arrows.
sub parts_of {
    my ($type) = @_;
    my ($depth, @parts) = (0, '');
    for my $char (split //, $type) {
        $depth++ if $char =~ /[({]/;
        $depth-- if $char =~ /[)}]/;
        if ($char eq '→' && $depth == 0) { push @parts, ''; }
        else { $parts[-1] .= $char; }
    }
    return @parts;
}

# How many explicit arguments a type takes; none, where it isn't one of a relation.
sub arguments_of {
    my ($type) = @_;
    my @parts = parts_of($type);
    return undef if $parts[-1] !~ /^\s*Type \d/;
    my $count = 0;
    for my $part (@parts[0 .. $#parts - 1]) {
        my ($named, $left) = binders($part);
        $count += $named + ($left =~ /\S/ ? 1 : 0);
    }
    return $count;
}

# The definitions of a module of specs: kind, name, its line, and what stands between its name and its fields or equations.
# The arguments of a module without a name, which each definition inside it takes, are put in front.
sub definitions_of {
    my ($file) = @_;
    my @lines = lines_of($file);
    my ($around, @found) = ('');
    for (my $i = 0; $i < @lines; $i++) {
        $around = '' if $lines[$i] =~ /^[^\s-]/;
        next if $lines[$i] !~ /^(\s*)(?:(?:pub )?(module|record|data)|(abbrev|unfoldable)(?: pub)?) (\S+)(.*)$/;
        my ($margin, $kind, $name, $head) = ($1, $2 // $3, $4, $5);
        my $ends = $kind =~ /module|record|data/ ? qr/\bwhere\s*$/ : undef;
        next if !$ends && $head !~ /^\s*:/;
        my $at = $i;
        while ($i < $#lines && !($ends && $head =~ $ends) && $lines[$i + 1] =~ /^$margin\s/) { $head .= ' ' . $lines[++$i]; }
        next if $ends && $head !~ $ends;
        if ($kind eq 'module') { $around = $head =~ s/\bwhere\s*$//r; }
        else { push @found, [$kind, $name, $at + 1, $around, $head]; }
    }
    return @found;
}

sub takes {
    my ($kind, $around, $head) = @_;
    my ($outside) = binders($around);
    if ($kind eq 'record') { return $outside + (binders($head))[0]; }
    my ($own, $type) = binders($head);
    my $count = arguments_of($type =~ s/^\s*://r =~ s/\s*\bwhere\s*$//r);
    return defined $count ? $outside + $own + $count : undef;
}

sub count_relations {
    my ($relations, %at, @long) = (0);
    for my $file (@specs) {
        for my $definition (definitions_of($file)) {
            my ($kind, $name, $line, $around, $head) = @$definition;
            push @{$at{$name}}, "$file:$line";
            my $count = takes($kind, $around, $head);
            next if !$count;
            $relations++;
            push @long, [$count, "$file:$line $name"] if $count > 7;
        }
    }
    @long = sort { $b->[0] <=> $a->[0] || $a->[1] cmp $b->[1] } @long;
    figure("relations of more than 7 arguments, of $relations", scalar @long, 'floor: 0', map { "$_->[0] $_->[1]" } @long);
    my @twice = sort { @{$at{$b}} <=> @{$at{$a}} || $a cmp $b } grep { @{$at{$_}} > 1 } keys %at;
    my $names = keys %at;
    figure("names with more than one definition in specs, of $names", scalar @twice, 'goal: 20', map { "$_: @{$at{$_}}" } @twice);
}

# ---- lines

# The places of those lines of a file's clauses that are longer than 120 columns: from `ensures` or `requires` to the brace that
# closes it.
sub long_clauses {
    my ($file) = @_;
    my @lines = lines_of($file);
    my ($depth, $inside, @long) = (0, 0);
    for my $i (0 .. $#lines) {
        my $line = $lines[$i];
        next if $line =~ m{^\s*//};
        $inside = 1 if !$inside && $line =~ /^\s*(?:ensures|requires)\b/;
        next if !$inside;
        push @long, "$file:" . ($i + 1) . ' ' . length $line if length $line > 120;
        $depth += ($line =~ tr/{//) - ($line =~ tr/}//);
        $inside = 0 if $depth <= 0 && $line =~ /\}/;
        $depth = 0 if !$inside;
    }
    return @long;
}

# Those of a file of specs, imports and comments apart.
sub long_specs {
    my ($file) = @_;
    my @lines = lines_of($file);
    return map { "$file:" . ($_ + 1) . ' ' . length $lines[$_] }
        grep { length $lines[$_] > 120 && $lines[$_] !~ /^\s*(?:use |--)/ } 0 .. $#lines;
}

# How many of the places each crate has, most first.
sub by_crate {
    my %many;
    for my $place (@_) { $many{$1}++ if $place =~ m{^crates/(\w+)}; }
    my @crates = sort { $many{$b} <=> $many{$a} || $a cmp $b } keys %many;
    return @crates ? join ' ', map { "$_ $many{$_}" } @crates : ();
}

sub count_lines {
    my @clauses = map { long_clauses($_) } @sources;
    my @specs_long = map { long_specs($_) } @specs;
    figure('lines of clauses above 120 columns', @clauses + @specs_long, 'goal: below 100');
    figure('in src, by crate', scalar @clauses, '', by_crate(@clauses));
    figure('in specs, by crate', scalar @specs_long, '', by_crate(@specs_long));
    my ($in_specs, $in_proofs) = (0, 0);
    $in_specs += () = lines_of($_) for @all_specs;
    $in_proofs += () = lines_of($_) for @proofs;
    figure('lines of specs and of proofs', $in_specs + $in_proofs, 'goal: 5,000 fewer',
        "specs $in_specs in " . @all_specs . ' files', "proofs $in_proofs in " . @proofs . ' files');
}

# ---- long functions

# The functions of a file with the lines between the braces of their bodies. A body opens at a brace alone in the margin of its
# function, or at the end of the line that ends its head, and closes in that margin, or in the line that it opens in.
sub bodies_of {
    my ($file) = @_;
    my @lines = lines_of($file);
    my @bodies;
    for my $i (0 .. $#lines) {
        next if $lines[$i] !~ /^(\s*)(?:pub(?:\([\w: ]+\))? +)?(?:const +|unsafe +|extern "\w+" +)*fn +(\w+)/;
        my ($margin, $name, $opens) = ($1, $2, $i);
        $opens++ while $opens < $#lines && $lines[$opens] !~ /;$|^$margin(?:\S.*)?[{}]$/;
        next if $lines[$opens] =~ /;$/;
        my $closes = $opens;
        if ($lines[$opens] =~ /\{$/) {
            $closes++;
            $closes++ while $closes < $#lines && $lines[$closes] !~ /^$margin\}/;
        }
        push @bodies, [$closes == $opens ? 0 : $closes - $opens - 1, "$file:" . ($i + 1) . " $name"];
    }
    return @bodies;
}

sub count_functions {
    my @bodies = map { bodies_of($_) } @sources;
    my @long = sort { $b->[0] <=> $a->[0] || $a->[1] cmp $b->[1] } grep { $_->[0] > 40 } @bodies;
    my $functions = @bodies;
    figure("functions with more than 40 lines in their bodies, of $functions", scalar @long, 'goal: 0',
        map { "$_->[0] $_->[1]" } @long);
}

count_refusals();
count_walks();
count_relations();
count_lines();
count_functions();
END

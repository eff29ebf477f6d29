# Reads the source of the crates as text, for .ci/methods. Usage: perl read.pl tallies|older TREE [LIST]
# Prints what it reads, in sections: a line that ends with a colon, and under it lines that are set in. Where a list is given, which is
# such a text with remarks after `#`, it prints where the two differ instead, and nothing where they don't.
# - tallies: which functions of all crates call those that have a tally in their hands, and how often. Then, of the crates of the
#   library, what stands outside functions and names a tally, and a digest of every function that names a tally, a type that holds one,
#   or a function that takes or answers one.
# - older: which functions each function of the crate `quadratic` calls, and these in turn, with the types that they are told. Then
#   what stands outside its functions, and digests of the older method itself.
# A function of an impl or of a trait goes by its type or its trait: `path::PathResult::from`, `build::Method::fill`. Where a type parameter
# stands before a name, as in `M::fill`, it is the function of the trait that bounds it, and which code runs is told by the type: so both
# lists begin with the impls of the library's traits.
use strict;
use warnings;
use Digest::SHA qw(sha256_hex);

my ($what, $tree, $list) = @ARGV;
my (%functions, %outside, %uses, %modules, %types, %impls, @odd, @sections, $is_library);

# Forms that could hide a name or a text from this reading: none may stand anywhere, between functions, within one, or in a literal. The
# macros that are left are std's, and hide nothing that they are given.
my $plain = qr{unsafe\(no_mangle\)|repr\(C\)|derive\((?:Clone|Copy|Drop|Debug|PartialEq|Eq|PartialOrd|Ord|Hash|Default|, )+\)|cycle\(\w+\)|inline\(never\)|inline};
my $macros = qr/(?:e?print(?:ln)?|write(?:ln)?|format|vec|assert(?:_eq|_ne)?|prove|matches)/;
my $hides = qr{\#!?\[(?!$plain\])[^\]]*\]|/\*|\br\#|\bmacro_rules\b|\bfn\s*\(|(?<![\w>])::|::(?![\w<])|(?<!\w)(?!$macros!)\w+!\s*[(\[\{]};
my $hides_outside = qr/\bpub use [^;]*\b[a-z_]\w*\s*;|\buse\b[^;]*(?:\bas\b|[{*])[^;]*|\bmod\s+\w+\s*\{|\bfn\b.{0,40}|[^\x00-\x7f]+/;
my $hides_within = qr/\b(?:fn|use|mod|impl|type|const|static)\b/;
my $hides_in_literals = qr/\bb?r#*"/;

# The text from a bracket at a place to its partner.
sub bracketed {
    my ($text, $at) = @_;
    my %partner = ('(' => ')', '[' => ']', '{' => '}');
    my @open;
    pos($text) = $at;
    while ($text =~ /\G[^()\[\]{}]*([()\[\]{}])/g) {
        if ($partner{$1}) { push @open, $partner{$1}; next }
        die "brackets do not match\n" unless @open && pop @open eq $1;
        return substr $text, $at, pos($text) - $at unless @open;
    }
    die "brackets do not match\n";
}

# A text on one line, without commas before a closing bracket.
sub joined {
    my ($text) = @_;
    $text =~ s/\s+/ /g;
    $text =~ s/([(\[]) /$1/g;
    $text =~ s/,? ([)\]])/$1/g;
    $text =~ s/, \}/ }/g;
    $text =~ s/^ | $//g;
    return $text;
}

# The statements of a joined text, set in as their braces are. What stands in round or square brackets is not cut.
sub statements {
    my ($text) = @_;
    my ($line, $depth, $round, @lines) = ('', 0, 0);
    my $end = sub { $line =~ s/^ +| +$//g; push @lines, '    ' x $depth . $line if $line ne ''; $line = '' };
    while ($text =~ /\G(.)/g) {
        my $c = $1;
        $round++ if $c =~ /[(\[]/;
        $round-- if $c =~ /[)\]]/;
        if (!$round && $c eq '}') { $end->(); $depth-- }
        $line .= $c;
        next if $round;
        if ($c eq '{') { $end->(); $depth++ }
        $end->() if $c =~ /[;,]/ || $c eq '}' && $text !~ /\G *(?:[;,.)]|else\b)/;
    }
    $end->();
    return @lines;
}

# The paths that a use brings: `a::{b, c::{d, e}}` brings `a::b`, `a::c::d` and `a::c::e`, and `a::{self}` brings `a`.
sub brought {
    my ($text) = @_;
    my ($start, $group) = $text =~ /^([^{}]*)\{(.*)\}$/s or return $text =~ s/::self$//r;
    my ($item, $depth, @items) = ('', 0);
    for my $c (split //, "$group,") {
        $depth++ if $c eq '{';
        $depth-- if $c eq '}';
        if ($c ne ',' || $depth) { $item .= $c; next }
        push @items, $item if $item ne '';
        $item = '';
    }
    return map { brought("$start$_") } @items;
}

# The ghost members of traits, impls and types, with their terms, left out.
sub without_ghosts {
    my ($text) = @_;
    while ($text =~ /\bghost\s+\w+\s*[:=]\s*(?=\{)/g) {
        my $start = $-[0];
        my $end = pos($text) + length bracketed($text, pos $text);
        pos($text) = $end;
        if ($text =~ /\G\s*=\s*(?=\{)/gc) { $end = pos($text) + length bracketed($text, pos $text) }
        pos($text) = $end;
        $end = pos($text) if $text =~ /\G\s*[;,]/gc;
        substr($text, $start, $end - $start) = '';
        pos($text) = $start;
    }
    return $text;
}

# Where the impls and traits of a text stand, each with what its functions go by: the type of an impl, or the trait.
sub blocks {
    my ($module, $text) = @_;
    my @blocks;
    while ($text =~ /^[ \t]*(?:pub\s+)?(?:unsafe\s+)?(impl|trait)\b([^{;]*)(?=\{)/mg) {
        my ($kind, $head, $start) = ($1, joined($2), pos $text);
        my $end = $start + length bracketed($text, $start);
        $head =~ s/ where .*//;
        my ($trait, $type) = ('', $head);
        if ($kind eq 'impl') {
            1 while $head =~ s/<[^<>]*>//;
            ($trait, $type) = $head =~ /^\s*(?:(.*\S) for )?(\S+)\s*$/ or push @odd, "$module has an impl: $head";
            push @{ $impls{$module} }, { trait => $trait, type => $type } if defined $trait && $trait ne '';
        } else {
            ($type) = $head =~ /^\s*(\w+)/;
        }
        push @blocks, { start => $start, end => $end, type => $type };
        pos($text) = $start + 1;
    }
    return @blocks;
}

# Reads a file: its functions, uses, modules and types, and what stands outside its functions. Remarks, contracts, what is brought for
# contracts and what is said of tactics are left out, and so are brackets in literals. A use of several paths stands as so many uses.
# Forms that could hide something are kept apart.
sub read_file {
    my ($crate, $module, $file) = @_;
    open my $in, '<', $file or die "$file: $!\n";
    my $text = do { local $/; <$in> };
    push @odd, "$module has: $1" while $text =~ /($hides_in_literals)/g;
    $text =~ s{("(?:\\.|[^"\\])*"|'(?:\\.|[^'\\])')|//[^\n]*}{defined $1 ? $1 =~ tr/()[]{}/....../r : ''}gse;
    $text =~ s/\bghost use [^;]*;//g;
    $text = without_ghosts($text);
    $text =~ s/\#!?\[tactic\([\w, ():]*\)\]//g;
    $text =~ s{\b((?:pub\s+)?use\s+)([^;]*);}{my $use = $1; join ' ', map { "$use$_;" } brought($2 =~ s/\s+(?=[{},])|(?<=[{},])\s+//gr)}ge;
    my @blocks = blocks($module, $text);
    my ($rest, $from) = ('', 0);
    while ($text =~ /(?:\bpub\s+)?(?:\bextern\s+"C"\s+)?\bfn\s+(\w+)\s*(?:<(?:[^<>()]|->|\([^()]*\)|<[^<>]*>)*>\s*)?(?=\()/g) {
        my ($name, $start) = ($1, $-[0]);
        pos($text) += length bracketed($text, pos $text);
        $text =~ /\G\s*->[^{;]*?(?=\s*(?:[{;]|\b(?:requires|ensures|ghost|where)\b))/gc;
        $text =~ /\G\s*where\b[^{;]*?(?=\s*(?:[{;]|\b(?:requires|ensures|ghost)\b))/gc;
        my $head = joined(substr $text, $start, pos($text) - $start);
        pos($text) += length bracketed($text, pos $text) while $text =~ /\G\s*(?:requires|ensures|ghost)\b[^{;]*(?=\{)/gc;
        my ($block) = grep { $_->{start} < $start && $start < $_->{end} } @blocks;
        my $body = '{}';
        # A function that a trait only declares has no body.
        unless ($text =~ /\G\s*;/gc) {
            die "$file: $name has no body\n" unless $text =~ /\G\s*(?=\{)/gc;
            $body = bracketed($text, pos $text);
            pos($text) += length $body;
        }
        $rest .= substr $text, $from, $start - $from;
        $from = pos($text);
        # A function of an impl or a trait goes by its type too, with a mark where its name is taken.
        my $key = join '::', $module, $block ? $block->{type} : (), $name;
        $key .= "'" while $functions{$key};
        $functions{$key} = { crate => $crate, module => $module, head => $head, body => joined(substr $body, 1, -1) };
        push @odd, "$key has within: $1" if $body =~ /($hides_within)/;
        push @odd, "$key has letters of another kind" if "$head$body" =~ /[^\x00-\x7f]/;
    }
    $rest .= substr $text, $from;
    $outside{$module} = { crate => $crate, text => joined($rest) };
    $modules{$module}{$1} = 1 while $rest =~ /\bmod\s+(\w+)\s*;/g;
    $types{$module}{$1} = $2 while $rest =~ /\b(?:struct|enum|trait)\s+(\w+)\s*(?:<[^<>]*>)?\s*(?::[^{]*)?(\{[^}]*\}|\([^)]*\)|(?=;))/g;
    $uses{$module}{$2} = "$1$2" while $rest =~ /\buse\s+((?:\w+::)*)(\w+)\s*;/g;
    push @odd, "$module has: $1" while $rest =~ /($hides_outside)/g;
    # A type of a trait stands in an impl. Elsewhere in the library one would be another name.
    while ($text =~ /^[ \t]*((?:pub\s+)?type\s+\w+)/mg) {
        my ($name, $at) = ($1, $-[0]);
        push @odd, "$module has: $name" if $is_library->{$crate} && !grep { $_->{start} < $at && $at < $_->{end} } @blocks;
    }
    push @odd, "$module has: $1" while $text =~ /($hides)/g;
}

# Reads every file of a folder of a crate.
sub read_folder {
    my ($crate, $folder, $module) = @_;
    for my $path (sort glob "$folder/*") {
        my ($name) = $path =~ m{([^/]+?)(?:\.rt)?$};
        if (-d $path) { read_folder($crate, $path, "${module}::$name") }
        else { read_file($crate, $name =~ /^(?:lib|main)$/ ? $module : "${module}::$name", $path) }
    }
}

# What a path of names means in a module. A use does not go by other uses, and no path goes through a function.
sub meaning {
    my ($module, $path, $in_use) = @_;
    my ($first, @others) = split /::/, $path;
    return join '::', $module =~ /^(\w+)/, @others if $first eq 'crate';
    return join '::', $module, @others if $first eq 'self';
    return join '::', $module =~ s/::\w+$//r, @others if $first eq 'super';
    my $used = $in_use || !$uses{$module}{$first} ? '' : meaning($module, $uses{$module}{$first}, 1);
    return join '::', $used, @others if $used && !(@others && $functions{$used});
    return "${module}::$path" if !@others || $modules{$module}{$first} || defined $types{$module}{$first};
    return $path;
}

# The functions that a function names, called or not, as often as it does, with the types that they are told where these are asked for. A
# method other than `len` has a point before it.
sub named {
    my ($f, $text, $with_types) = @_;
    my $module = $f->{module};
    my %bound = $f->{head} =~ /\b([A-Z]\w*): ([A-Z]\w*)/g;
    my @found;
    while ($text =~ /(?:(\.)|(?<![\w.]))((?:\w+(?:::<(?:[^<>]|<[^<>]*>)*>)?::)*[A-Za-z_]\w*)(::<(?:[^<>]|<[^<>]*>)*>)?(\s*\()?/g) {
        my ($point, $path, $told, $called) = ($1, $2, $3 // '', $4);
        $path =~ s/::<(?:[^<>]|<[^<>]*>)*>//g;
        next if $path =~ /^(?:if|while|match|return|in|else|let|break|as|mut|for|Ok|Err|Some|None)$/;
        if ($point) { push @found, ".$path" if $called && $path ne 'len'; next }
        $path =~ s/^([A-Z]\w*)(?=::)/$bound{$1}/ if $path =~ /^([A-Z]\w*)::/ && $bound{$1};
        my $key = meaning($module, $path);
        push @found, $with_types ? "$key$told" : $key if $called || $functions{$key} && ($path =~ /::/ || $uses{$module}{$path});
    }
    return @found;
}

# The impls of the library's traits, as a section.
sub as_impls {
    my ($library) = @_;
    my @lines;
    for my $module (sort grep { $library->{ $outside{$_}{crate} } } keys %impls) {
        for (@{ $impls{$module} }) {
            my $trait = meaning($module, $_->{trait});
            my ($in, $name) = $trait =~ /^(.*)::(\w+)$/;
            push @lines, "$trait for " . meaning($module, $_->{type}) if defined $in && $types{$in} && defined $types{$in}{$name};
        }
    }
    return ["the library's traits are there for:", sort @lines];
}

# The crates that some crates go by, themselves included.
sub crates_below {
    my @next = @_;
    my (%needs, %below);
    open my $in, '<', "$tree/crates.txt" or die "$tree/crates.txt: $!\n";
    while (<$in>) { $needs{$1} = [split ' ', $2] if /^(\w+)(?: +staticlib)? *:([^#]*)/ }
    while (defined(my $crate = shift @next)) { push @next, @{ $needs{$crate} // [] } unless $below{$crate}++ }
    return \%below;
}

# Functions with digests of their texts, as a section.
sub as_read { return ['as they were read:', map { "$_ " . substr sha256_hex("$functions{$_}{head} {$functions{$_}{body}}"), 0, 16 } @_] }

sub list_tallies {
    my $library = crates_below(qw(foldwig demands foldwig_report));
    push @sections, as_impls($library);
    # The types that hold a tally.
    my %holds = (Tally => 1);
    my ($known, $types) = (0, '');
    while ($known != keys %holds) {
        $known = keys %holds;
        $types = join '|', sort keys %holds;
        for my $module (grep { $library->{ $outside{$_}{crate} } } keys %types) {
            for my $type (keys %{ $types{$module} }) { $holds{$type} = 1 if $types{$module}{$type} =~ /\b(?:$types)\b/ }
        }
    }
    # The functions that take or answer one of them, and those that have a tally in their hands.
    my @library = sort grep { $library->{ $functions{$_}{crate} } } keys %functions;
    my %carries = map { $_ => 1 } grep { $functions{$_}{head} =~ /\b(?:$types)\b/ } @library;
    my %has = map { $_ => {} } grep { $functions{$_}{head} =~ /\b(?:Tally|Tested|Kept)\b/ || /^path::tally::/ } @library;
    my %listed = (%carries, %has);
    for my $key (keys %functions) {
        my $f = $functions{$key};
        my @named = named($f, $f->{body});
        for (@named) { $has{$_}{$key}++ if $has{$_} }
        next unless $library->{ $f->{crate} };
        $listed{$key} = 1 if $f->{body} =~ /\b(?:tally|$types)\b/ || grep { $carries{$_} } @named;
    }
    for my $key (sort keys %has) { push @sections, ["$key is called by:", map { "$_, $has{$key}{$_}" } sort keys %{ $has{$key} }] }
    for my $module (sort grep { $library->{ $outside{$_}{crate} } } keys %outside) {
        my @lines = grep {
            /\b(?:tally|$types)\b/ || /\buse ([\w:]+);/ && $carries{ meaning($module, $1, 1) }
        } statements($outside{$module}{text});
        push @sections, ["outside its functions $module has:", map { s/^ +//r } @lines] if @lines;
    }
    push @sections, as_read(sort keys %listed);
}

sub list_older {
    push @sections, as_impls(crates_below(qw(foldwig demands foldwig_report)));
    my @next = sort grep { $functions{$_}{crate} eq 'quadratic' } keys %functions;
    my %seen;
    while (defined(my $key = shift @next)) {
        next if $seen{$key}++ || !$functions{$key};
        my %calls = map { $_ => 1 } named($functions{$key}, $functions{$key}{body}, 1);
        push @sections, ["$key calls:", sort keys %calls];
        push @next, sort map { s/::<.*//r } keys %calls;
    }
    push @sections, ['outside its functions quadratic has:', map { s/^ +//r } statements($outside{quadratic}{text})];
    push @sections, as_read(grep { $functions{$_} } map { "quadratic::$_" } qw(build_by build_quadratic build_within drop_passed find_nearest is_nearer walk_down Quadratic::fill));
}

# The sections of a list.
sub read_list {
    my ($file) = @_;
    my (%listed, $header);
    open my $in, '<', $file or die "$file: $!\n";
    while (<$in>) {
        chomp;
        next if /^#/ || /^\s*$/;
        if (/^\S/) { $header = $_; $listed{$header} = [] }
        else { push @{ $listed{$header} }, s/^    //r }
    }
    return %listed;
}

# Prints where what was read first differs from a list, one line for each section.
sub compare {
    my %listed = read_list(@_);
    for (@sections) {
        my ($header, @is) = @$_;
        my $due = delete $listed{$header};
        if (!$due) { print "not in the list: $header ", join(' ', map { s/^ +//r } @is), "\n"; next }
        my $i = 0;
        $i++ while $i < @is && $i < @$due && $is[$i] eq $due->[$i];
        next if $i == @is && $i == @$due;
        my ($new, $old) = map { defined ? s/^ +//r : 'nothing more' } $is[$i], $due->[$i];
        print "$header $new -- and not: $old\n";
    }
    print "not there: $_\n" for sort keys %listed;
}

$is_library = crates_below(qw(foldwig demands foldwig_report));
for my $folder (sort glob "$tree/crates/*/src") {
    my ($crate) = $folder =~ m{([^/]+)/src$};
    read_folder($crate, $folder, $crate);
}
if ($what eq 'tallies') { list_tallies() } else { list_older() }
push @sections, ['forms that are not read:', sort @odd] if @odd;
if (defined $list) { compare($list); exit }
for (@sections) {
    my ($header, @lines) = @$_;
    print "$header\n", map({ "    $_\n" } @lines), "\n";
}

# YAML::XS over a file: what it loads, and what it dumps of that.
#
#     xs_client.pl FILE..
use strict;
use warnings;
use Data::Dumper;
use YAML::XS ();

# what is warned of is where it was met
$| = 1;

$Data::Dumper::Sortkeys = $Data::Dumper::Useqq = $Data::Dumper::Indent = 1;
for my $path (@ARGV) {
    print "\n@@ $path\n";
    open my $file, '<:raw', $path or die "cannot open $path";
    my $text = do { local $/; <$file> };
    my @values = eval { YAML::XS::Load($text) };
    my $told = defined $@ && length $@ ? $@ : join '', Dumper(\@values), eval { YAML::XS::Dump(@values) } // $@;
    $told = "a collection is a key, so that its address is told\n" if $told =~ /\(0x[0-9a-f]+\)/;
    print $told;
}

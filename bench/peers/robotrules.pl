# Perl's WWW::RobotRules: what `robots` does with the same lines on standard input, for bench/commands.
use strict;
use warnings;
use WWW::RobotRules;

my $rules = WWW::RobotRules->new("mybot/1.0");
my ($file, @links) = "";
while (my $line = <STDIN>) {
    chomp $line;
    if ($line =~ s/^r //) { $file .= "$line\n" }
    elsif ($line =~ s/^u //) { push @links, $line }
}
$rules->parse("https://www.example.com/robots.txt", $file);
print $rules->allowed($_) ? "allow\n" : "disallow\n" for @links;

#!/usr/bin/env perl
# Does a task of this folder with XML::Twig: by_twig.pl TASK < DOCUMENT > RESULT
use strict;
use warnings;
use XML::Twig;

my ($task) = @ARGV;
my ($number, $day, %prices) = (0, undef);

sub text { my ($it) = @_; $it =~ s/&/&amp;/g; $it =~ s/</&lt;/g; $it =~ s/>/&gt;/g; return $it }
sub value { my ($it) = @_; $it = text($it); $it =~ s/"/&quot;/g; return $it }

sub product {
    my ($twig, $product) = @_;
    my $price = $product->first_child('price');
    $number++;
    print '<tr class="r', $number % 2, '"><td>', text($product->first_child_text('name')), '</td><td>',
        text($price->att('cur')), ' ', int($price->text / 100), '</td></tr>';
    $twig->purge;
}

sub kept {
    my ($twig, $entry) = @_;
    $entry->print if $entry->att('level') eq 'error';
    $twig->purge;
}

sub neighbour {
    my ($twig, $entry) = @_;
    my $its = $entry->att('day');
    if (!defined $day || $its ne $day) {
        print '</day>' if defined $day;
        $day = $its;
        print '<day n="', value($day), '">';
    }
    print '<e>', text($entry->text), '</e>';
    $twig->purge;
}

sub item {
    my ($twig, $item) = @_;
    my $sku = $item->att('sku');
    print '<item sku="', value($sku), '"';
    print ' price="', value($prices{$sku}), '"' if exists $prices{$sku};
    print '><count>', text($item->first_child_text('count')), '</count></item>';
    $twig->purge;
}

sub read_prices {
    my $keep = sub { my ($twig, $price) = @_; $prices{ $price->att('sku') } = $price->text; $twig->purge };
    XML::Twig->new(twig_handlers => { price => $keep })->parsefile('prices.xml');
}

my %tasks = (
    table      => { root => 'table', record => 'product', each => \&product },
    filter     => { root => 'log',   record => 'e',       each => \&kept },
    neighbours => { root => 'log',   record => 'e',       each => \&neighbour },
    merge      => { root => 'order', record => 'item',    each => \&item },
);
my $it = $tasks{$task} or die "no task $task\n";
binmode STDOUT, ':utf8';
read_prices() if $task eq 'merge';
print "<$it->{root}>";
XML::Twig->new(keep_atts_order => 1, twig_handlers => { $it->{record} => $it->{each} })->parse(\*STDIN);
print '</day>' if defined $day;
print "</$it->{root}>\n";

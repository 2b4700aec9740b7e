# Stands in for irssi's Perl interface: as much of it as examples/clients/bnc_history.pl uses.
package Irssi;
use strict;
use warnings;

# The own clock, in milliseconds, for whatever is compiled after this.
our $clock = 0;
BEGIN { *CORE::GLOBAL::time = sub { return int($clock / 1000) } }

our (%handlers, %commands, $timer, $folder);
our %settings = (hilight_nick_matches => 1, autoclose_windows => 1, reuse_unused_windows => 0);
# For each signal that is being emitted, from the inside out, what is still to be called with which words.
my @emissions;
# What the program itself does at a signal, behind all handlers.
our %programs;

sub signal_add_first { my ($name, $call) = @_; unshift @{$handlers{$name}{first}}, $call }
sub signal_add { my ($name, $call) = @_; push @{$handlers{$name}{normal}}, $call }
sub signal_add_last { my ($name, $call) = @_; push @{$handlers{$name}{last}}, $call }

sub signal_emit {
    my ($name, @words) = @_;
    my $them = $handlers{$name} || {};
    my @calls = (@{$them->{first} || []}, @{$them->{normal} || []});
    push @calls, $programs{$name} if $programs{$name};
    push @calls, @{$them->{last} || []};
    unshift @emissions, { calls => \@calls };
    run_rest(@words);
    shift @emissions;
}

sub run_rest {
    my (@words) = @_;
    my $emission = $emissions[0];
    while (my $call = shift @{$emission->{calls}}) {
        $call->(@words);
    }
}

sub signal_stop { $emissions[0]{calls} = [] }

# The rest of the handlers are called with other words.
sub signal_continue {
    my (@words) = @_;
    run_rest(@words);
}

sub settings_set_bool { my ($name, $value) = @_; $settings{$name} = $value }
sub settings_get_bool { my ($name) = @_; return $settings{$name} }
sub settings_add_str { my (undef, $name, $value) = @_; $settings{$name} = $value }
sub settings_get_str { my ($name) = @_; return $settings{$name} }
sub get_irssi_dir { return $folder }
sub command_bind { my ($name, $call) = @_; $commands{$name} = $call }
sub timeout_add { my (undef, $call) = @_; $timer = $call }
sub active_win { return Irssi::Window->new(0) }
sub print { print "print $_[0]\n" }

$INC{'Irssi.pm'} = __FILE__;

package Irssi::Window;
sub new { my ($class, $number, @items) = @_; return bless { refnum => $number, items => \@items }, $class }
sub items { my ($self) = @_; return @{$self->{items}} }

package Irssi::Item;
sub new { my ($class, $server, $name) = @_; return bless { server => $server, name => $name }, $class }
sub window { my ($self) = @_; return Irssi::Window->new(1, $self) }

package Irssi::Server;
sub new { my ($class) = @_; return bless { tag => 'bnc', chatnet => 'bnc', nick => 'al', windows => {} }, $class }
sub send_raw { my ($self, $line) = @_; print "send $line\n" }
sub send_raw_now { my ($self, $line) = @_; print "send $line\n" }
sub item { my ($self, $name) = @_; return $self->{windows}{lc $name} ||= Irssi::Item->new($self, $name) }
sub window_item_find { my ($self, $name) = @_; return $self->{windows}{lc $name} }
sub channels { my ($self) = @_; return grep { $_->{name} =~ /^#/ } values %{$self->{windows}} }
sub queries { my ($self) = @_; return grep { $_->{name} !~ /^#/ } values %{$self->{windows}} }

1;

# The steps of run_drivers by the driver for Perl: steps.pl URI COLLECTION
use strict;
use warnings;
use MongoDB;

my ($uri, $name) = @ARGV;
my $failed = 0;

# What the driver's own log says.
my $lines = 0;
my @faults;

# That a command or a heartbeat failed is a fault.
sub hear {
    my ($event) = @_;
    $lines++;
    push @faults, "$event->{commandName} failed: $event->{failure}" if $event->{type} eq 'command_failed';
    push @faults, "server lost: $event->{failure}" if $event->{type} eq 'server_heartbeat_failed_event';
}

sub step {
    my ($what, $does) = @_;
    if (eval { $does->() or die "another answer than was wanted\n"; 1 }) {
        print "$what ok\n";
    } else {
        $failed = 1;
        print "$what FAILED ", substr($@, 0, 200) =~ s/\n/ /gr, "\n";
    }
}

my $client = MongoDB->connect($uri, { monitoring_callback => \&hear });
my $items = $client->get_database('shop')->get_collection($name);
my @numbers = map { { _id => $_, a => $_ } } 0 .. 999;
my %seven = (sort => { a => -1 }, limit => 7, batchSize => 2);

step(ping => sub { $client->send_admin_command([ping => 1])->output->{ok} == 1 });
step(insert => sub { @{ $items->insert_many(\@numbers)->inserted } == 1000 });
step(find => sub { my @found = $items->find({ a => { '$lt' => 10 } }, \%seven)->all; @found == 7 });
step(update => sub { $items->update_one({ _id => 2 }, { '$set' => { a => -1 } })->matched_count == 1 });
step(delete => sub { $items->delete_one({ _id => 3 })->deleted_count == 1 });
# The fields of its `$group` stand in another order from run to run, since Perl's hashes do.
step(count => sub { $items->count_documents({}) == 999 });
step(databases => sub { grep { $_ eq 'shop' } $client->database_names });
step(drop => sub { $items->drop; 1 });
sleep 11;
step(ping_again => sub { $client->send_admin_command([ping => 1])->output->{ok} == 1 });
print "log: $lines lines, ", scalar @faults, " of them warnings\n";
step(log => sub { @faults ? die join(', ', @faults) . "\n" : 1 });
$client->disconnect;
exit $failed;

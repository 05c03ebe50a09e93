#!/usr/bin/perl
# A JSON:API client of Debian (libponapi-client-perl) against `jsonapid serve`: 17 calls, each checked for its status and its data.
# Usage: bench/client.pl [PROGRAM]. It builds nothing: run the program once by `rt run` in crates/jsonapid first.
use strict;
use warnings;
use FindBin;
use IO::Socket::INET;
use JSON::PP;
use PONAPI::Client;

my $program = $ARGV[0] // "$FindBin::Bin/../crates/jsonapid/out/jsonapid";
my $schema  = "/tmp/jsonapid-client-$$.json";
open my $file, '>', $schema or die $!;
print $file '{"types":{"articles":{"attributes":{"title":{"type":"text"},"views":{"type":"int","default":0}},"relationships":{"author":{"kind":"one","target":"people"},"readers":{"kind":"many","target":"people"}}},"people":{"client-ids":true,"attributes":{"name":{"type":"text"}}}}}';
close $file;
my $free = IO::Socket::INET->new(LocalAddr => '127.0.0.1', Listen => 1) or die $!;
my $port = $free->sockport;
close $free;
my $server = fork // die $!;
if (!$server) { open STDOUT, '>', '/dev/null'; exec $program, 'serve', $schema, "127.0.0.1:$port", '4', '1000000' or die $! }
for (1 .. 100) { last if IO::Socket::INET->new(PeerAddr => "127.0.0.1:$port"); select undef, undef, undef, 0.05 }

my $client = PONAPI::Client->new(host => '127.0.0.1', port => $port);
my ($calls, $bad) = (0, 0);

sub told {
    my ($name, $wanted, $check, $status, $content) = @_;
    $calls++;
    my $good = $status == $wanted && $check->($content);
    $bad++ unless $good;
    printf "%2d %-48s %s %s\n", $calls, $name, $status, $good ? 'as it should be' : 'WRONG: ' . encode_json($content // {});
}
my $any = sub { 1 };

told('an empty collection', 200, sub { !@{ $_[0]{data} } }, $client->retrieve_all(type => 'articles'));
told('a person with an id of its own', 201, sub { $_[0]{data}{id} eq 'ann' }, $client->create(type => 'people', data => { type => 'people', id => 'ann', attributes => { name => 'Ann' } }));
told('another person', 201, $any, $client->create(type => 'people', data => { type => 'people', id => 'bob', attributes => { name => 'Bob' } }));
told('an article with an author', 201, sub { $_[0]{data}{id} eq '1' }, $client->create(type => 'articles', data => { type => 'articles', attributes => { title => 'T' }, relationships => { author => { data => { type => 'people', id => 'ann' } } } }));
told('the article', 200, sub { $_[0]{data}{attributes}{title} eq 'T' }, $client->retrieve(type => 'articles', id => '1'));
told('the article with its author', 200, sub { $_[0]{included}[0]{id} eq 'ann' }, $client->retrieve(type => 'articles', id => '1', include => ['author']));
told('the article with one field', 200, sub { !exists $_[0]{data}{attributes}{views} }, $client->retrieve(type => 'articles', id => '1', fields => { articles => ['title'] }));
told('an update', 200, sub { $_[0]{data}{attributes}{views} == 7 }, $client->update(type => 'articles', id => '1', data => { type => 'articles', id => '1', attributes => { views => 7 } }));
told('readers are added', 204, $any, $client->create_relationships(type => 'articles', id => '1', rel_type => 'readers', data => [{ type => 'people', id => 'ann' }, { type => 'people', id => 'bob' }]));
told('the linkage of the readers', 200, sub { @{ $_[0]{data} } == 2 }, $client->retrieve_relationships(type => 'articles', id => '1', rel_type => 'readers'));
told('the readers', 200, sub { $_[0]{data}[1]{attributes}{name} eq 'Bob' }, $client->retrieve_by_relationship(type => 'articles', id => '1', rel_type => 'readers'));
told('a reader is taken away', 204, $any, $client->delete_relationships(type => 'articles', id => '1', rel_type => 'readers', data => [{ type => 'people', id => 'ann' }]));
told('the author is replaced', 204, $any, $client->update_relationships(type => 'articles', id => '1', rel_type => 'author', data => { type => 'people', id => 'bob' }));
told('the author', 200, sub { $_[0]{data}{id} eq 'bob' }, $client->retrieve_by_relationship(type => 'articles', id => '1', rel_type => 'author'));
told('a person who is referenced stays', 409, sub { $_[0]{errors}[0]{code} eq 'still-referenced' }, $client->delete(type => 'people', id => 'bob'));
told('the article is deleted', 204, $any, $client->delete(type => 'articles', id => '1'));
told('an article that is not there', 404, sub { $_[0]{errors}[0]{code} eq 'not-found' }, $client->retrieve(type => 'articles', id => '1'));

kill 'TERM', $server;
waitpid $server, 0;
unlink $schema;
print "$calls calls, $bad wrong\n";
exit($bad ? 1 : 0);

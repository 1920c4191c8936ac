#!/usr/bin/perl
# Plays the requests of the worked session by a client that OpenAPI::Client generates from
# docs/openapi.yaml, and prints each with its reply as examples/session/play.sh does.
#
#     perl examples/openapi/session.pl OPENAPI SESSION URL NORTH_KEY SOUTH_KEY
#
# SESSION is examples/session/expected.txt. Each reply is validated against the schema of its status.
use strict;
use warnings;
use Mojo::JSON ();
use OpenAPI::Client;

my ($openapi, $session, $url, $north, $south) = @ARGV;
my %keys = ('north-desk' => $north, 'south-hall' => $south);
my $client = OpenAPI::Client->new("file://$openapi", base_url => $url);
my $key;
$client->ua->request_timeout(60);
$client->ua->on(start => sub { $_[1]->req->headers->header('x-ledger-key' => $key) });

# The name of the call for a method and a path, and its parameters.
my %calls = map { ("$_->{method} $_->{path}" => $_->{operation_id}) }
    @{$client->validator->routes->to_array};

sub call_of {
    my ($method, $path) = @_;
    my %parameters;
    $path =~ s{^/statement/(\d+)$}{/statement/{account}} and $parameters{account} = $1;
    my $name = $calls{lc($method) . " $path"} or die "no operation for $method $path\n";
    return ($name, $path, \%parameters);
}

# What is wrong with a reply, by the description.
sub misfits {
    my ($method, $path, $reply) = @_;
    my $body = sub {
        return {exists => 1, value => $reply->json, content_type => 'application/json'};
    };
    return () unless ($reply->headers->content_type // '') =~ m{^application/json};
    return $client->validator->validate_response([lc $method, $path, $reply->code], {body => $body});
}

# Sends a request, and prints the reply. `next` of a page is kept for the request after it.
my $next;

sub play {
    my ($tenant, $method, $path, $body) = @_;
    $key = $keys{$tenant} or die "no key of $tenant\n";
    $body =~ s/C\d+\+1/$next/ if defined $next;
    my ($name, $template, $parameters) = call_of($method, $path);
    my @content = $body eq '' ? () : (json => Mojo::JSON::decode_json($body));
    my $reply = $client->$name($parameters, @content)->result;
    my $why = join ', ', misfits($method, $template, $reply);
    die "$method $path: $why\n" if $why;
    my $text = $reply->body;
    ($next) = $text =~ /"next":"(\d+)"/ ? $1 : $next;
    print "> $tenant $method $path\n", map { "> $_\n" } split /\n/, $body;
    print '< ', $reply->code, "\n";
    $text =~ s/[}],[{]/},\n    {/g;
    print map { "< $_\n" } split /\n/, $text;
}

# The paragraphs without a command of the operator.
local $/ = '';
$| = 1;
open my $file, '<', $session or die "$session: $!\n";
while (my $part = <$file>) {
    next if $part =~ /^> ledgerd /m or $part !~ /^> /m;
    my ($title) = $part =~ /^(# .*)$/m;
    print "\n$title\n";
    sleep 2 if $title =~ /second and a half later/;
    while ($part =~ /^> (\S+) (GET|POST) (\S+)\n((?:> .*\n)*)< /mg) {
        my ($tenant, $method, $path, $body) = ($1, $2, $3, $4);
        $body =~ s/^> //mg;
        chomp $body;
        play($tenant, $method, $path, $body);
    }
}

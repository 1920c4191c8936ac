<?php
// Sends a batch of none with file_get_contents, so many times, and prints the statuses. PHP asks for
// the end of the connection with each request, and reads to that end.
[, $url, $key, $count] = $argv;
for ($sent = 0; $sent < (int) $count; $sent++) {
    $context = stream_context_create(['http' => [
        'method' => 'POST',
        'header' => "x-ledger-key: $key\r\ncontent-type: application/json\r\n",
        'content' => '[]',
        'ignore_errors' => true,
    ]]);
    file_get_contents($url, false, $context);
    echo explode(' ', $http_response_header[0])[1], "\n";
}

<?php
// Runs the page that the command line names, and tells the microseconds of a processor that it took, on standard error.
require __DIR__ . '/labels_off.php';
$before = getrusage();
include $argv[1];
$after = getrusage();
$spent = 0;
foreach (['ru_utime', 'ru_stime'] as $kind) {
    $spent += 1000000 * ($after["$kind.tv_sec"] - $before["$kind.tv_sec"]) + $after["$kind.tv_usec"] - $before["$kind.tv_usec"];
}
fwrite(STDERR, $spent);

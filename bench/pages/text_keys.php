<?php
// storing under text keys
$turns = 100000;
$front = labelled('key');
for ($i = 0; $i < $turns; $i++) { $table["$front$i"] = $i; }
echo count($table), $table['key9'];

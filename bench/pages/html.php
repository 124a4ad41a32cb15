<?php
// `htmlspecialchars` of 1 MB
$turns = 20;
$text = str_repeat(labelled('<b>hi</b> '), 100000);
for ($i = 0; $i < $turns; $i++) { $escaped = htmlspecialchars($text); }
echo strlen($escaped), substr($escaped, -10);

<!doctype html>
<title>A small page</title>
<?php
$names = ['ann', 'bob', 'cyd'];
foreach ($names as $name) { echo '<p>Hello ', htmlspecialchars($name), ' ', htmlspecialchars($_GET['n']), "</p>\n"; }

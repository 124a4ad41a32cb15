<!doctype html>
<title>A sample site</title>
<link rel="stylesheet" href="/style.css">
<h1>A sample site</h1>
<p>This page is a script, and says <?php echo strtoupper('hello'); ?>.</p>

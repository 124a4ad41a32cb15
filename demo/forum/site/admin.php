<?php
// Who is there, for the administrator.
if (user() !== 'admin') {
    http_response_code(403);
    head('Not for you');
    exit;
}
head('Visitors');
foreach (query('SELECT name, mail FROM users ORDER BY name') as $user) {
    $posts = count(query('SELECT id FROM posts WHERE author = ' . sql_quote($user['name'])));
    echo '<p>', html($user['name']), ' &lt;', html($user['mail']), "&gt;, posts: $posts</p>\n";
}

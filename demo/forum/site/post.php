<?php
// Puts a post, or a reply, on the board.
if (user() === '') redirect('/login.php');
$post = trim($_POST['post'] ?? '');
if ($post !== '') {
    $reply_to = (int)($_POST['reply_to'] ?? '0');
    query('INSERT INTO posts VALUES (' . next_id('posts') . ", $reply_to, " . sql_quote(user()) . ', ' . sql_quote($post) . ')');
}
redirect('/');

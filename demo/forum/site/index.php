<?php
// The public board: posts with their replies.
function show_post($post, $replies) {
    echo '<article id="p', $post['id'], '"><b>', html($post['author']), '</b><p>', nl2br(html($post['post'])), "</p>\n";
    foreach ($replies as $reply) {
        if ($reply['reply_to'] === $post['id']) echo '<blockquote><b>', html($reply['author']), '</b> ', nl2br(html($reply['post'])), "</blockquote>\n";
    }
    if (user() !== '') {
        echo '<form method="post" action="/post.php"><input type="hidden" name="reply_to" value="', $post['id'], '">';
        echo '<input name="post" placeholder="Reply"> <button>Reply</button></form>';
    }
    echo "</article>\n";
}

head('Board');
$replies = query('SELECT * FROM posts WHERE reply_to <> 0 ORDER BY id');
foreach (query('SELECT * FROM posts WHERE reply_to = 0 ORDER BY id DESC LIMIT 50') as $post) show_post($post, $replies);
if (user() !== '') {
    echo '<form method="post" action="/post.php"><textarea name="post"></textarea> <button>Post</button></form>';
} else {
    echo '<p>Log in to post.</p>';
}

<?php
// A visitor's private notes.
if (user() === '') redirect('/login.php');
if (isset($_POST['note'])) {
    $note = policy_add($_POST['note'], new OwnNote(user()));
    query('INSERT INTO notes VALUES (' . next_id('notes') . ', ' . sql_quote(user()) . ', ' . sql_quote($note) . ')');
    redirect('/notes.php');
}
head('Notes');
foreach (query('SELECT id, note FROM notes WHERE owner = ' . sql_quote(user()) . ' ORDER BY id') as $note) {
    echo '<p><a href="/note.php?id=', $note['id'], '">', $note['id'], '</a> ', html($note['note']), "</p>\n";
}
?>
<form method="post"><input name="note"> <button>Keep</button></form>

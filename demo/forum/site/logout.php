<?php
// Ends the session.
if (isset($_COOKIE['sid'])) query('DELETE FROM sessions WHERE sid = ' . sql_quote($_COOKIE['sid']));
$_SESSION = [];
header('Set-Cookie: sid=; Max-Age=0; Path=/');
redirect('/');

<p>Hello <?php /* htmlspecialchars is forgotten here: the filter of boot.php refuses a tag */ echo input('name'); ?>!</p>

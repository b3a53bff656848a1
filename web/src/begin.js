// Everything is defined: the page begins.
begin();

$c |- wff ( -> ) $.
$v P Q $.
wp $f wff P $.
wq $f wff Q $.
wim $a wff ( P -> Q ) $.
ax $a |- ( P -> P ) $.
${
up.1 $e |- P $.
up $a |- ( Q -> P ) $.
$}
unnamed $p |- ( Q -> Q ) $= ( ax nope ) AB $.
later $p |- ( Q -> Q ) $= ( later ) A $.
outside $p |- ( Q -> Q ) $= ( wp $( a comment is no token $) up.1 ) A $.
own $p |- ( Q -> Q ) $= ( ax wq ) AB $.
letter $p |- ( Q -> Q ) $= ( ax ) AbB $.
inside $p |- ( Q -> Q ) $= ( ax ) U?B $.
beyond $p |- ( Q -> Q ) $= ( ax ) ACB $.
far $p |- ( Q -> Q ) $= ( ax ) AUUUAB $.
first $p |- ( Q -> Q ) $= ( ax ) ZAB $.
twice $p |- ( Q -> Q ) $= ( ax ) AZZB $.
begun $p |- ( Q -> Q ) $= ( ax ) AUZB $.
marked $p |- ( Q -> Q ) $= ( ax ) ?ZB $.
unclosed $p |- ( Q -> Q ) $= ( ax wim $.
empty $p |- ( Q -> Q ) $= ( ax ) $( no letter $) $.
lone $p |- ( Q -> Q ) $= ( ) $.
halfway $p |- ( Q -> Q ) $= ( ax ) AU $.
second $p |- ( Q -> Q ) $= ( ax ) $( in a second token $) A B- $.
leftmost $p |- ( Q -> Q ) $= ( nope wq ) A- $.
before $p |- ( Q -> Q ) $= ( ax ) ABCZ $.

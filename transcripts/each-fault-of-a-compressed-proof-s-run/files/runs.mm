$c |- wff ( -> ) $.
$v P Q $.
wp $f wff P $.
wq $f wff Q $.
wim $a wff ( P -> Q ) $.
ten $a wff P P P P P P P P P P $.
ax $a |- ( P -> P ) $.
${
$d P Q $.
two $a |- ( P -> Q ) $.
$}
${
up.1 $e |- P $.
up $a |- ( Q -> P ) $.
$}
short $p |- ( Q -> Q ) $= ( wim ) AZB $.
typed $p |- ( Q -> Q ) $= ( ax ) ABZBC $.
other $p |- ( Q -> Q ) $= ( wp ax up ) BAZECD $.
same $p |- ( Q -> Q ) $= ( two ) AZCB $.
apart $p |- ( Q -> Q ) $= ( wp two ) BAC $.
left $p |- ( Q -> Q ) $= ( ax ) AZBC $.
wrong $p |- ( Q -> Q ) $= ( wp ax ) BC $.
long $p |- ( Q -> Q ) $= ( ten ax ) ABBBBBC $.
first $p |- ( Q -> Q ) $= ( ax ) AZBBC? $.
later $p |- ( Q -> Q ) $= ( ax ) AZB?B $.

$c |- wff ( -> ) $.
$v P Q $.
wp $f wff P $.
wq $f wff Q $.
wim $a wff ( P -> Q ) $.
ax $a |- ( P -> P ) $.
${
up.1 $e |- P $.
up $a |- ( Q -> P ) $.
$}
plain $p |- ( Q -> Q ) $= ( ax ) AB $.
tagged $p |- ( ( Q -> Q ) -> ( ( Q -> Q ) -> ( Q -> Q ) ) ) $= ( wim ax up ) AABZEBEECD $.
spread $p |- ( ( Q -> Q ) -> ( ( Q -> Q ) -> ( Q -> Q ) ) ) $= ( wim
      ax $( the list goes on $) up )
      AA B ZE
      BEE $( and the letters $) CD $.
tags_unused $p |- ( Q -> ( Q -> Q ) ) $= ( wim ax up ) AABZAZACD $.
again $p |- ( Q -> Q ) $= ( ax ) AZBZD $.
named_twice $p |- ( Q -> Q ) $= ( ax ) AZCZDB $.
two_hypotheses $p |- ( P -> Q ) $= ( ax ) ABC $.
open $p |- ( Q -> Q ) $= ( wim ) A?B $.
unused $p |- ( Q -> Q ) $= ( wim ax up wp ) AC $.

" Assembly texts of GhostRider. Made by editors/make: change that script, not this file.
if exists('b:current_syntax')
  finish
endif
syntax case match
syntax match ghostriderasmBadWord /\v[^ \t;]+/
syntax match ghostriderasmName /\v[A-Za-z_][A-Za-z0-9_]*%([^ \t;])@!/
syntax match ghostriderasmAny /\v\-%([^ \t;])@!/
syntax match ghostriderasmNumber /\v%(\+|\-)?%(0|[1-9][0-9]*)%([^ \t;])@!/
syntax match ghostriderasmMask /\v[0-9a-f]{8}%([ \t]+%(\-|[0-9]))@=/
syntax match ghostriderasmRegister /\v%(r10|r11|r12|r13|r14|r15|r16|r17|r18|r19|r20|r21|r22|r23|r24|r25|r26|r27|r28|r29|r30|r31|r0|r1|r2|r3|r4|r5|r6|r7|r8|r9)%([^ \t;])@!/
syntax match ghostriderasmBank /\v%(O2|O3|O4|O5|O6|O7|O8|O9|D|E)%([ \t]+r[0-9])@=/
syntax match ghostriderasmShape /\v%(scalar|array)%([ \t]+[0-9])@=/
syntax match ghostriderasmSecret /\vsecret%([ \t]+%(scalar|array)%([^ \t;])@!)@=/
syntax match ghostriderasmPublic /\vpublic%([ \t]+%(scalar|array)%([^ \t;])@!)@=/
syntax match ghostriderasmComparison /\v%(eq|ge|gt|le|lt|ne)%([ \t]+r[0-9])@=/
syntax match ghostriderasmBadWordIn /\v[^ \t;]+/ contained
syntax match ghostriderasmAimIn /\v[A-Za-z_][A-Za-z0-9_]*%([^ \t;])@!/ contained
syntax match ghostriderasmNumberIn /\v%(\+|\-)?%(0|[1-9][0-9]*)%([^ \t;])@!/ contained
syntax match ghostriderasmArrowIn /\v\-\>/ contained
syntax match ghostriderasmTarget /\v\-\>[ \t]+[^ \t;]+/ contains=ghostriderasmArrowIn,ghostriderasmNumberIn,ghostriderasmAimIn,ghostriderasmBadWordIn
syntax match ghostriderasmBadLine /\v^[ \t]*\zs[^ \t;]+/
syntax match ghostriderasmMnemonic /\v^[ \t]*\zs%(halt|remu|add|and|div|idb|jmp|ldb|ldw|mul|nop|rem|shl|shr|stb|stw|sub|xor|br|li|or)%([^ \t;])@!/
syntax match ghostriderasmLabel /\v^[ \t]*\zs[A-Za-z_][A-Za-z0-9_]*\:%([^ \t;])@!/
syntax match ghostriderasmDirective /\v^[ \t]*\zs%(\.object|\.symbol|\.bank|\.note)%([^ \t;])@!/
syntax match ghostriderasmBadComment /\v\;.*$/ contains=@Spell
syntax match ghostriderasmComment /\v\;[\x01-\x7f]*$/ contains=@Spell
highlight default link ghostriderasmComment Comment
highlight default link ghostriderasmBadComment Error
highlight default link ghostriderasmDirective PreProc
highlight default link ghostriderasmLabel Label
highlight default link ghostriderasmMnemonic Statement
highlight default link ghostriderasmBadLine Error
highlight default link ghostriderasmArrowIn Operator
highlight default link ghostriderasmNumberIn Number
highlight default link ghostriderasmAimIn Label
highlight default link ghostriderasmBadWordIn Error
highlight default link ghostriderasmComparison Operator
highlight default link ghostriderasmPublic StorageClass
highlight default link ghostriderasmSecret StorageClass
highlight default link ghostriderasmShape Type
highlight default link ghostriderasmBank Constant
highlight default link ghostriderasmRegister Identifier
highlight default link ghostriderasmMask Number
highlight default link ghostriderasmNumber Number
highlight default link ghostriderasmAny Constant
highlight default link ghostriderasmBadWord Error
let b:current_syntax = 'ghostriderasm'

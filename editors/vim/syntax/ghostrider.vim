" Sources of GhostRider. Made by editors/make: change that script, not this file.
if exists('b:current_syntax')
  finish
endif
syntax case match
syntax match ghostriderBadByte /\v[^ \t\r]/
syntax match ghostriderBracket /\v%(\(|\)|\[|\]|\{|\})/
syntax match ghostriderEnd /\v\;/
syntax match ghostriderAssignment /\v\=/
syntax match ghostriderOperator /\v%(\<\<|\>\>|\%|\&|\*|\+|\-|\/|\^|\|)/
syntax match ghostriderComparison /\v%(%(\<\<|\>\>))@!%(\!\=|\<\=|\=\=|\>\=|\<|\>)/
syntax match ghostriderName /\v[A-Za-z_][A-Za-z0-9_]*/
syntax match ghostriderCall /\v[A-Za-z_][A-Za-z0-9_]*%([ \t]*\()@=/
syntax match ghostriderProcedure /\vproc%([ \t]+[A-Za-z_][A-Za-z0-9_]*[ \t]*\()@=/
syntax match ghostriderControl /\v%(else|if|while)%([A-Za-z0-9_])@!/
syntax match ghostriderType /\v%(int)%([A-Za-z0-9_])@!/
syntax match ghostriderSecret /\v%(secret)%([A-Za-z0-9_])@!/
syntax match ghostriderPublic /\v%(public)%([A-Za-z0-9_])@!/
syntax match ghostriderLongName /\v[A-Za-z_][A-Za-z0-9_]{32,}/
syntax match ghostriderNumber /\v[0-9]+/
syntax match ghostriderBadNumber /\v[0-9]+[A-Za-z_][A-Za-z0-9_]*/
syntax match ghostriderComment /\v\/\/.*$/ contains=@Spell
highlight default link ghostriderComment Comment
highlight default link ghostriderBadNumber Error
highlight default link ghostriderNumber Number
highlight default link ghostriderLongName Error
highlight default link ghostriderPublic StorageClass
highlight default link ghostriderSecret StorageClass
highlight default link ghostriderType Type
highlight default link ghostriderControl Statement
highlight default link ghostriderProcedure Keyword
highlight default link ghostriderCall Function
highlight default link ghostriderComparison Operator
highlight default link ghostriderOperator Operator
highlight default link ghostriderAssignment Operator
highlight default link ghostriderEnd Delimiter
highlight default link ghostriderBracket Delimiter
highlight default link ghostriderBadByte Error
let b:current_syntax = 'ghostrider'

	MOVQ ( 0x10 ) << ( R8 )
#define M0(a) ( a ) - . ( $ )
	<< // a comment
#ifdef NONE
	M0 (( -> ) M0(M0(ADDQ) +)) M0(M0(M0 () M0(- $))) MOVQ
#else
#ifdef NONE
	M0 () M0() 0x10 M0() /* one */
#else
#ifndef NONE
	( M0(M0(R8 0x10) -) ) ( M0 (AX) ) M0 (M0() ADDQ) M0(M0 () ( M0() )) // a comment
	BX ( M0 (M0 (ADDQ) AX) ) // a comment
	( . ) 0x10
#else
	BX 0x10 /* one */
#endif
	( M0(R8) ) M0 (M0(M0 ())) M0 (M0() ->) M0 (AX) // a comment
#ifndef M0
	M0(AX M0()) /* one */
	BX << 8 -> /* one */
	( M0 () ) + // a comment
	M0 (M0(AX) ( M0() )) // a comment
#else
	( M0 (M0()) ) AX 0x10 /* one */
#endif
#endif
#ifdef M0
	R8 M0 () + BX
#else
#ifdef NONE
	BX MOVQ M0(MOVQ) // a comment
#else
	M0 () ( M0(M0 (- +)) ) M0 (BX) M0(M0 (M0 (0x10 +) M0 ()) M0())
	M0() M0(( : )) M0 ()
	M0 ($) ( : ) ADDQ M0 () ( . )
#endif
#endif
	M0()
#ifdef M0
#ifndef M0
	AX /* one */
	( $ ) ( R8 ) // a comment
	MOVQ
	M0(ADDQ) ( M0 () ) M0 (M0(AX M0 (AX)) M0 (->)) M0(->) // a comment
#else
	<< + : MOVQ M0(M0() -) // a comment
	M0($ M0(M0(AX :) M0 ())) ( ( ( : ) ) ) MOVQ
	R8 M0(<<) + M0(M0 (MOVQ M0())) M0() // a comment
#endif
#ifndef NONE
	M0(R8) /* one */
#else
	AX M0(<< ADDQ) + M0(M0(M0() ->)) M0 (( M0 () ) M0 (8 M0(:))) /* one */
#endif
#else
	M0(M0(:) 8) M0 (8 ( M0(BX -) )) // a comment
	M0(M0(M0 (MOVQ .) M0 ())) ( M0(M0 (-> .) M0 (R8 .)) ) M0 () // a comment
#endif
#endif
	( M0() ) // a comment
	M0 (M0 (M0(: .))) M0 (+)
#define M1(a) . ( ADDQ ) : + ADDQ
#ifdef M1
#ifdef M0
#ifndef NONE
	M0 (M0 (M1(: 0x10) -)) /* one */
	M1(M1(M1() M1 (:))) M1 (-) ( - ) M0 (( M0 (- BX) ) M0(M1 (R8))) .
#else
	( - ) ( M1(BX M0 ($ .)) ) << MOVQ M0(R8 M0(M1 (AX -) M0 ()))
	M0(-) 0x10 M0 () // a comment
	8 M1(( AX )) M0() BX
#endif
	( MOVQ ) M1 (<<) ADDQ
#ifdef M0
	M0 (M0(:)) : M0() // a comment
#else
	( M1(M1 (:) M1()) ) /* one */
	M0 () // a comment
	. M0(M0 ())
#endif
#endif
	( MOVQ )
	M0 (M0 (-) M1 (0x10)) -> - ( MOVQ ) // a comment
	M0(M0 ($ M0(.))) 0x10 ( M1(M1(AX) .) ) // a comment
#else
#ifndef M1
#ifndef M1
	M0 (M1(M0()) $)
	( 0x10 ) M0(->) M0() // a comment
#endif
#ifdef NONE
	MOVQ : M1 () << M0() // a comment
	M0() // a comment
	ADDQ
	M0 (( M0 (-> -) )) ADDQ
#endif
#endif
#endif
#define M2() << M0(0x10 M0(. ADDQ)) \
 M0 (M1() M0 (R8)) AX M0 ()
#ifdef NONE
	M1 (M2 () ->) M1 () - AX R8 // a comment
	M1() M0 (R8 M1 ()) M1()
#ifdef M2
	M2 () /* one */
	M1 (. M2 ()) M0 () /* one */
#else
	M1 () 0x10 /* one */
	BX M0(M2 () M1 (( BX ))) ( BX ) M1 (M2 () M2()) AX // a comment
#ifdef M2
	M2() M1(.) M2() : M2() /* one */
	<< AX R8 : /* one */
	:
	MOVQ /* one */
#endif
#endif
#endif
#define M3(a, b) -> M2() \
 M0(( R8 ) a) b
#define M4(a, b, c) ( b ) a ( a ) AX ( a )
#ifdef M4
	-> /* one */
	( M1(M1 ($ R8) M0($ MOVQ)) ) M1 (MOVQ) : M0(M4 (( 0x10 ),,ADDQ ( 0x10 ))) .
	BX AX $ : : // a comment
	M1 () M1() R8 ( $ ) M3(M2 () ADDQ, M3 (,) .) // a comment
#else
	M4(, M0 (M0(MOVQ -)), M1 ())
#endif
#define M5 \
 : :
#ifdef M1
	M1 (M3($, M3 (ADDQ :,R8) M3 (,0x10)))
#ifndef M4
#ifdef M5
	( M3(M5 :, ) ) // a comment
#else
	M4 (,M0 (),M2 () MOVQ) // a comment
#endif
#ifdef M5
	M0(( - )) M1 (M2()) M2 () M1 () // a comment
	M0 (M2 () M0 (M1 (0x10))) M4(, + M4(M3 (AX 0x10,) M1 ($), , M4 (R8,,0x10 ADDQ) M5), ) // a comment
	M5 /* one */
	M5 // a comment
#else
	M4 (M0 (M2 ()) :,,) M3(8 M1 (AX), M5 ( 8 )) M1 () . ( $ ) /* one */
#endif
#endif
#else
#ifndef M4
#ifndef M5
	BX M3 (M2() ( M2 () ),M3 (M5,0x10)) ( . ) M2() M0 (-> ( M0(R8 BX) )) // a comment
	$ /* one */
	M1 (M2()) M3(, ) -> . M1(( M2() ) M0 (BX .)) // a comment
	M1 (M5) . M1() M5 -> /* one */
#else
	M1() M5 . M0(( . )) // a comment
	. M1 () M0() M2() M0 (-> M5) // a comment
	M0() // a comment
	M1 ()
#endif
	M5 M4(, $, ) M2 () M5
#ifdef M5
	M0(M5 M1 ()) -> // a comment
	<< M4(, , M2() ( - )) M5
	: M1 (M2 ()) // a comment
#else
	MOVQ // a comment
	M2() - /* one */
	M4($ M1(( -> )), R8, ) // a comment
	M5 0x10 M3(M5, M5) M1() M2() // a comment
#endif
#ifndef M0
	M1 (BX M3(MOVQ <<, )) 8 MOVQ ( M1 (( ADDQ ) -) ) M2 ()
#else
	$ M0(M0 () M1()) M3 (M4(8, M1 (), ) R8,ADDQ) /* one */
#endif
#else
	R8 MOVQ
#endif
#endif
#define M6(a, b) b M4(, , ) b a M2()
	M5 M5 M6 (M5 M1(),M2 () M3(( << ), M0 (AX BX))) M5 /* one */
	AX M0(( MOVQ )) // a comment
#define M7(a, b, c) $ - : c
	M7 (: M6(, M1 (. R8) M5),M4 (,,) -,AX M0(M1 (ADDQ R8)))
#define M8(a) \
 M6(, ) M7($ M0(), , . M3 (a,-)) a
	<< + /* one */
#undef M8
	M3 (M3 (,),M4 (R8 M2 (),- ->,+ MOVQ)) // a comment
	$ /* one */
#define M9(a, b, c) ( M2 () ) c c M2() \
 b
	M6(( M7 ($,<< -,) ), ( . )) BX M3(0x10 M3(( $ ) M0 (->), ), M1() M7 (M9(MOVQ, ., R8 $),,M1())) M7(+, $ -, M7(M4 (,<<,MOVQ .) ( . ), , M5 ( $ ))) // a comment
#ifdef M3
	<< M7 (,+ M4 (M7 (0x10,$,8) M9 (BX -,,8 8),M5,( + )),ADDQ :) M6(M6 (ADDQ,M0(+ AX)), M9 (,M5,M0 (<<)) M4 (M3 (0x10,MOVQ :) M7 (,MOVQ,ADDQ :),R8,M2() M1 (R8 +))) M6(M3 (,M1 ()), M9(0x10 8, , )) :
#else
	M2 () M5 M0(M5)
	8 M2()
	0x10 M7(( M6(0x10 0x10, MOVQ) ), M1(:) MOVQ, M2 () <<) BX M1 (.) /* one */
#ifndef M0
#ifdef M0
	M6(( M7 (BX 0x10,<<,BX) ) M0($), M4($, -> ADDQ, ) M4 (,,)) 8 MOVQ MOVQ
	M7(, , M9 (,->,M4(: 8, ., )) M5) M3(M5, ) M4 (0x10 ( M9 (,$,AX +) ),M5,) M7 (,M0 (),M7(( . ), , )) // a comment
#endif
	M3(0x10, M3 (M0 (+ +),M2() 0x10)) -> ( MOVQ ) // a comment
#endif
#endif
#define M10(a, b, c) \
 ->
	$ M1() 8
#ifndef M0
	- M1(M10(M6(, -) M1(), ( + ), )) M2 () M10(M9 (M0(AX),8 M2 (),0x10), ( ( $ ) ), M10 (,,MOVQ :)) M10(M5, M4(. +, M9($ 8, $, ADDQ 0x10) ->, M7 (. +,,8) M4(-, -> MOVQ, R8 ADDQ)) ., ) /* one */
#else
#ifdef M7
	M10(M4 (( . ) M7 ($,-> $,AX 8),M0(:),( BX )) M9(( ADDQ ), . M6 (MOVQ :,), M4 (,,) M3(, )), MOVQ, M5) M2 () . -
	M6(, M0 (:)) -> M2() ( M1(M7 (+ <<,8 0x10,<<)) ) M5 /* one */
#ifdef M3
	( 8 ) M7(M9(, , ) M7 (M0 (-) 8,,M5), , M7(ADDQ MOVQ, , M2() M2()) M5) ( ( M1 (R8 <<) ) ) M3 (M1(ADDQ M6 (R8,)) MOVQ,) M10(AX M5, M6 (M2() ->,) M6(( + ), M2() M3 (- ->,0x10)), M6 (,) M0 (: M6(-> <<, MOVQ MOVQ))) /* one */
	MOVQ M5 - /* one */
	M2 () ADDQ M3 (,M5 BX)
#else
	M9 (,BX M4 (8 ADDQ,-> M7(0x10, -> MOVQ, AX),( MOVQ ) M4 (AX,->,MOVQ R8)),M4 (.,M3(, ),BX ->) M9 (ADDQ M5,M6(AX <<, R8 MOVQ) M2 (),+ M7 (. $,. :,))) M7 (M2 () M9 (,MOVQ 8,R8),BX,- M3 (,AX)) - ( M6(M7(8, , AX), M5) )
	M9 (M0 (:),M3(, ) ADDQ,M1 (M10(BX, :, ))) ( MOVQ ) ( M6 (M1() AX,: M6 (BX R8,)) ) M1(M3 (,M7 (,8,0x10 +) M5) M4 (,M9 (,,),$)) M4(( R8 ), M10 (M7 (,AX,BX),M7 (ADDQ :,. $,. $) M5,) M5, ) // a comment
#endif
#else
	M1 () M9 (,MOVQ,( . )) M0 () R8 M4 (M0 () M3(M9(- AX, , $ <<), - M1(8 :)),M2(),8 ( ( + ) ))
	:
#ifdef M2
	. M9 (<<,,MOVQ) M5 ( M0(M1(BX)) ) /* one */
	M9(: M7(, M3(:, ), 0x10 0x10), ( M2() ) M9(, M1(MOVQ :), ( MOVQ ) <<), <<) /* one */
	BX M2() M1(M10 (M4(, , ) ADDQ,( + ),M4 (R8,+,) ( BX )) :) M4 (:,M7 (,M2 () :,M3 (8,.) M2 ()),M6 (M0(MOVQ ->) M6 (+,<<),)) /* one */
#endif
	M5
#endif
#ifndef NONE
	0x10 // a comment
	M9 (M0() M5,M10 (,,),M7(M2 () BX, , ) .) M9(ADDQ M5, , M0(BX R8))
	- M9(R8, $ AX, ) M4 (,,) // a comment
#else
	ADDQ BX . /* one */
	<<
	8
#ifdef M5
	. M4(, ( ( $ ) ), ) /* one */
	M10 ($ ( + ),-> M2 (),) M10 (( M5 ),M5 M1 (M5),M7 (M6(, :),M1 (),) M9 (. M9 (ADDQ :,AX,BX),M3(, -) M5,)) ( M7 (M1(),8 M7(8 ->, , ),( -> )) ) ( M0(M2()) )
	ADDQ ( M3 (. M7(R8, 0x10, AX BX),) ) M3(:, MOVQ) M7 (M0 (M0() M5) M10 (,M5,BX),,) // a comment
#else
	M9 (. M5,AX ( M10 (,MOVQ +,<<) ),) /* one */
	M1 (M2 ()) M7(M2(), BX, 8) R8 // a comment
#endif
#endif
#endif
	M1() ( M5 ) 0x10 . ( $ )
	M9 (M0(:) M6 (M4(0x10 ADDQ, - :, -) M1(+),M0() M7(AX, , AX)),M5 M3(, M6 (AX MOVQ,) <<),) MOVQ // a comment
#undef M10
#define M11(a) $ $ M7 (a 8,a,) a M9 (->,a <<,:)
	M5 M9 (,+ ADDQ,) M6(ADDQ, ) AX /* one */
	AX M3(ADDQ, -> M3(, M4 (R8 R8,,0x10 AX))) // a comment
	M0 (MOVQ M2()) ( M7 (.,M6 (- AX,0x10 -),$) )
#define M12(a) BX \
 AX
#define M13 \
 ( M4(0x10, ADDQ :, ) )
#ifdef M3
	ADDQ . M11(M3 (M0 () M2 (),M7 (,ADDQ R8,AX AX))) M12(->) $
	M0(M12()) /* one */
	: M2 ()
#ifdef M4
#ifndef M0
	M12(M6(M1(AX), M0() M13) M7 (M12 (<<) 0x10,,M1(-> +) M9 (R8 $,BX,. 8))) M2() 0x10 M11 (M9 (M4 (0x10 <<,-> MOVQ,BX 0x10),: M3 (,),$ M3(<< ., -> R8)) M11())
	M0 () M2() 0x10 M3(R8 ( R8 ), M3 (M0(8 $),) M11())
	. - M6 (BX M11(-> M0 ()),( MOVQ ))
#endif
#endif
#endif
#define M14() \
 $
#define M15(a) 
#ifndef M12
#ifndef M6
	- // a comment
	M9(M14 (), :, $)
#ifdef M4
	( ( M0 (0x10) ) ) - M15(M2 () ( ( - ) )) M15(M9 (M3 (AX AX,-) ADDQ,M9(8 AX, $ ->, .) M0(),->))
	M12 (M11 ()) M14() M2 () M0() M3 (8,M5) // a comment
	( + ) AX ->
	M1 () // a comment
#else
	-
	M11 (M6 (M7(0x10, ->, ) M3(0x10, ->),ADDQ M3 (.,BX MOVQ)) :) M15 () : // a comment
	M7 (M1 () M0(M13 ( MOVQ )),M3 (M7 (,MOVQ,<<),M6 (.,0x10) +) M3 (,),) : ( M11 (M0() ->) ) M0 () M12()
	MOVQ M3 (M2(),) ( M11() )
#endif
#else
	- M1() M1(M15() M0 (M9 (,8 ->,R8) M0(<< 8))) // a comment
#endif
	M13 M1 (M2 () M13) M14 () /* one */
#else
	M5 // a comment
#ifndef M13
#ifdef M0
	+ AX /* one */
	M0(M2 () M7(M1(), M9 (R8,:,) M5, )) ( 8 )
	MOVQ /* one */
	( - ) M13 ( 8 ) // a comment
#else
	M6(, M14 ()) ADDQ M2() /* one */
	MOVQ /* one */
#endif
	. M1 (( M6(:, AX) )) M9(, -, ) M9(M3(R8, ( R8 )) M4 (M4 (.,BX ADDQ,:),MOVQ BX,$), , )
#else
	- MOVQ
#endif
	MOVQ M5 M9 (-,,M9 (,<< M5,) M15(M13)) M11(M4 (M2() ( - ),+,M5) M1(M7 (,,-) ( . )))
	M6(+, M12(M11(AX BX)) M2 ()) $ M15 (( R8 ) ( R8 )) M3 (M6(, :),<<) M4 (->,,)
#endif
#define M16(a, b) M7 (,,M9 (. b,,) ( R8 )) ( M9 (BX,$,8) ) b b
	M11(-> M3 (M11(MOVQ -) $,)) M6 (,M6 (,) .) M11 () M3 (M3 (,),) // a comment
#ifdef M1
	$ M14 ()
	( M14() )
	R8 << <<
#endif
#define M17(a, b, c) R8 M14() M5 8
#ifdef M13
	R8 M14 () M15(( BX ))
#else
	M0(+) -> /* one */
	AX
#endif
#define M18(a) a a a 8 M12(a)
#ifndef M7
#ifndef M1
	M13 R8 M11 (+ ADDQ) /* one */
#ifndef M14
	8 /* one */
	8 AX M17(( M6 (<<,->) ), , AX M11 ()) M16 (,M14 ()) // a comment
#endif
#ifndef M7
	. + M13 // a comment
	BX ADDQ M0 () M17(M11(: M0 (+)) +, M16 (,M3 (,0x10 :) :) M6 (BX,M11(+ 8)), ) . // a comment
	- 0x10 R8 M5 // a comment
	M1 (ADDQ) << << /* one */
#else
	0x10 // a comment
	( M14 () ) ( . ) M0 () /* one */
#endif
#ifdef M6
	( M16(BX M16 (,->), M13) ) M0() M14() M5 M16 (,M11 (M14())) // a comment
	MOVQ M2 () $ // a comment
	M6 (ADDQ M18(),AX) ADDQ
	M15(->)
#else
	-> M7(-> M13, ADDQ MOVQ, AX M14()) ( M15(M17 (,ADDQ 0x10,.) M1(0x10 MOVQ)) ) /* one */
#endif
#endif
#ifndef M11
	M12(M6(<<, ) M13) M14 () // a comment
	( + ) + M17 (M6 (M1(->),) 8,M11(-> M5) ( M9 (<< ADDQ,ADDQ,) ),M11 ()) M3(M15(), 0x10 ( ( ADDQ ) )) 0x10
	M6 (,) /* one */
	M4(, , ) ( M7 (M9 (-> BX,+,$ $),,M3 (MOVQ R8,+ 0x10) .) )
#else
#ifndef M0
	M12 (<<) << M5 M11(M17 (8 M2 (),,M1() M0 ())) M4 (,M17(( -> ) ( 8 ), , +) M4(, M15(), ),M3 (M12 (MOVQ 0x10) M3 (: 0x10,R8 BX),M11(AX MOVQ)) :) /* one */
	M11 () ( MOVQ ) AX ( - )
#else
	M1(M17 (R8,->,MOVQ MOVQ)) M16 (M11(8) +,.) - ( R8 )
	M14 () M5 M7 (M15(0x10 MOVQ),M5,8 M16 (,))
	8 /* one */
	M17(( - ) +, ADDQ, ) - M1(M2 ()) 8 /* one */
#endif
	<< /* one */
#ifdef M4
	M7(M12 (8), , ) /* one */
	. $ ( AX ) M13 M5 // a comment
#else
	M15 () M16 (,M13 ( MOVQ )) // a comment
	AX : // a comment
	M16 (M3 (,0x10) :,M1(-> AX)) M5 M17(, , M3(., )) M4(M4(, , ) M5, M17 (,MOVQ ( MOVQ ),M17(. BX, , 8)), ) // a comment
#endif
#endif
#ifndef M11
#ifndef M18
	0x10
	M3 (,->) // a comment
	-> M4(, M4 (M0 (),R8 R8,M14 ()) ( << ), .) AX /* one */
	M15() << M0 (M6 (: R8,M11(BX) ADDQ) ( M14 () ))
#else
	M16(( 8 ) M12(M16 (MOVQ 8,8 +)), 8) AX AX M0(8 ( M14() )) M11 ()
	M5 M12() + M5 M16 (M0 (M3 (MOVQ $,R8) 8),-> M2()) /* one */
#endif
#else
	M18(. M3(M4(MOVQ AX, AX ->, :), R8)) M16(0x10, M4 (M6 (0x10,-),,( + ) M1(AX <<))) M7(AX ( ( - ) ), M3(, M5 <<) M3(( + ), M4 (MOVQ,MOVQ,0x10)), ) ( : ) // a comment
#ifndef M14
	BX ( M0 () ) M3 (,R8 M0(M17(BX, ADDQ, ))) M9(M17(M6(, ), , ) :, 8 -, ( M3(, . ->) )) ADDQ // a comment
#else
	M9 (BX M12(M9(AX, + $, AX) MOVQ),AX,) -> M3 (R8 M18(),M3(, ) <<) /* one */
	ADDQ M6(M16 (( . ),M4 (,,R8) M6(, $)), $ M7(, , + <<)) - MOVQ $
	+ M2() M13 M18 (M6 (M17 (AX 0x10,-,),0x10)) // a comment
#endif
	M12(M1()) 0x10 M16(M6(R8, .), << ( M9(MOVQ, + AX, ADDQ) )) M11 (->) // a comment
#endif
#else
	AX -> M16 (M3 (,M2()) M17(, M13, AX),) +
#ifndef M4
	M9(R8, M9 (,,( MOVQ ) 8) M5, ADDQ) ADDQ 8 M18 (<<) M4(M3(, M18 () M6 (->,)), , M4(-> -, ->, )) // a comment
#else
	-> ( M3(+ M11 (8 R8), ( 0x10 ) M0 (-> 0x10)) )
	. M11 () 8 -> ADDQ // a comment
#ifndef M14
	M7 (MOVQ M15 (M5 ( . )),,M4(M17 (<< R8,,<< 0x10) 0x10, <<, ( R8 ))) M12() << M2()
	R8 ( ( M2 () ) ) << // a comment
	ADDQ M11($) MOVQ -
#else
	<< M1() M0(M3 (,)) // a comment
	M13 8 M2() // a comment
#endif
#endif
	<<
#endif
	M7 (,,$) BX // a comment
#ifndef M6
	<< M4 (M12 (- +) BX,,) + AX . /* one */
	-> ( 0x10 )
	- ( -> ) M2 () M15 () MOVQ
#ifdef M9
	M2 () + BX
#ifndef M3
	M13 /* one */
	M11 () - M4(ADDQ, M2 () M5, ) << /* one */
	M2 () M11 (M13) M12 () << M0() // a comment
	M7(, , ADDQ) - M3 (M4(, M9(AX $, : ADDQ, R8 ADDQ), M17(<<, . 8, 0x10) M17 (-,.,AX)),M16 (( << ),AX)) - // a comment
#else
	<< $ + // a comment
	( ( M16 (MOVQ,-) ) ) M18(M7(M16 (BX BX,:), , M6(, ) ->)) ( M18(M13 -) ) M17 (R8,M12(),) // a comment
#endif
	M5 ( M4 (M17 (MOVQ MOVQ,,+) ( ADDQ ),M12 (),) ) M15(M18(M14()) M7($, M16 (,) M17(0x10, ., R8), R8)) M13
	M11 (M4 (M16(, + <<),M5 ADDQ,( ADDQ ))) M1(M2 ()) /* one */
#else
#ifndef M4
	BX // a comment
#endif
#endif
#else
	R8 BX
	R8 M5 /* one */
	M16(, M17 (: M7(, AX ->, ),8,<< M6 (8 <<,0x10 R8))) $ M7(M14 (), BX, M15(M3 (8,R8 <<))) M18(M5 M15(BX)) BX
#endif
#define M19() ( MOVQ ) M7 (BX M12 (. ADDQ),M3(BX, -> R8),-> -) $
#ifndef M17
	M7 (,M3(( + ) AX, 0x10) M16 (M9 (,,),),M14()) M19() + /* one */
	8 M18(<< M12()) // a comment
#ifdef M1
	. : M18(M7 (R8 ( AX ),M13,))
#endif
#else
#ifndef M9
	M4(BX, :, M7 (,,M12(8 +)) M6(, M19() M12($))) M2() // a comment
#ifdef M5
	M17(, M14 (), - M13) M4 (M13 M2(),M15 (M3 (0x10 :,AX) -),<<) << // a comment
	R8 M4 (M3 (M7($ 0x10, , BX AX),) M0(M7(8, , MOVQ MOVQ) R8),R8 ->,) M18 ()
	( ( M2 () ) ) + BX M6(M1 (M18(.) M11(AX)) ADDQ, ) M11 () // a comment
#else
	M3 (ADDQ $,: M11(M5)) << M16(, ) MOVQ ( M11($ -) ) // a comment
	- // a comment
	M14() . -> M17(, M15 (M11(+) M19 ()), M15(( MOVQ )))
#endif
#ifdef M5
	M4 (M1 (ADDQ M9 (,MOVQ,0x10)) <<,,M6 (<< ADDQ,M4 (+ 8,<<,BX))) M7(, M15 () M17(M5, $, ), 8)
#else
	M5 8 M19() R8 R8 // a comment
#endif
#else
#ifdef M17
	M16(, M2 () M15()) M11() 0x10 M13
	M1() . M5 M17(, , )
#endif
#endif
	M17(, , ) M11 (M3(( R8 ), ( MOVQ )) M19()) $ ( M7 (MOVQ,R8,M3(-, R8) ->) ) // a comment
#endif
	M19() - /* one */
#define M20(a, b, c) ( M16 (R8 -,) ) : M9(c a, , M9(, , $ .) b) a a
#ifdef M18
#ifndef M19
	M5 8 M14 () ( M9 (( MOVQ ),M2() $,) ) // a comment
#else
	M15(( ADDQ ) M17 (M3 (-,<< BX),,AX BX)) M16(, M12()) M3(BX, ( M20(, - AX, - 8) )) M20 (( BX ) M1(),AX M16 (.,),M11(8 ( BX ))) M17(M12 (), ( BX ), M2 () M20(, M15(8), .)) // a comment
#ifndef M15
	$ ADDQ 8 M9 (( M16(MOVQ 8, <<) ),,M2 () .) M7(M4 (,( -> ) ( 8 ),M9 (<<,,8 .)), , M18 (M9 (,,)))
	:
	M3 (<< M12(M9(<< -, +, )),) ( -> ) // a comment
#endif
#endif
	( M0 (M11 (ADDQ)) ) M2() /* one */
#else
	M15(M19 () M13) ( M0(M15(: <<) AX) ) M3(M6(MOVQ, ) M15(M4 (AX -,MOVQ,<< +)), 0x10) M14 () ( M7(0x10, , MOVQ) ) // a comment
#endif
#define M21 -

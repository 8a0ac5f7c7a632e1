#define M0(a, b, c) AX \
 : a ( a ) ( b )
	. /* one */
#define M1() AX R8 M0 (+,: M0 (ADDQ -,<< -,0x10 0x10),M0 (R8,AX +,))
#define M2(a) ( M0 (. a,.,AX) ) R8 -> M1 () <<
	M2 (M2 (( BX ) M2 (BX 8)) M0 (:,,M1() M1 ())) M0(, M1 (), M1() M0(M0(8 ., , BX), , M0 (MOVQ 0x10,,) ( -> ))) 8 M1 () AX
	BX M2(M1()) M2(M2 (M0(+, MOVQ ., 0x10 ADDQ)))
	M1() M0 (ADDQ ( -> ),M1(),M0 (M0 (,+ .,),M2(R8 MOVQ) M1(),M0 (+,,$ BX)) M0 (M0(+, 8, BX MOVQ),M0 (,ADDQ 0x10,. <<) ( + ),)) /* one */
#define M3(a, b) <<
	M0(, M0(M2(MOVQ 8) M0(, 0x10, :), , M0 (AX,ADDQ :,) M3 (.,- ADDQ)), M0(, M0(R8, , 8 <<) M0(, R8 +, ), M1 () <<)) M3(M1 () M1(), ) // a comment
	-> M1() M0 (-> AX,,R8 M1()) 8
	M0 (,,) M1 () // a comment
#define M4(a) ( a ) a a
#define M5(a, b, c) \
 a . 0x10
	M2() M2 (M2 (M1 () ( MOVQ ))) 0x10 M1 () ( M0($, M0 (AX -,0x10 +,<< ->), MOVQ M3(, 8)) ) /* one */
	AX M1() ( M3(, - BX) ) 0x10 // a comment
#ifndef M5
	0x10 M3 (( M4(MOVQ ->) ) M5 (,,+),M3(, )) /* one */
	M5 (,,M1 () :) M5 (,,ADDQ)
#ifdef M4
	M1 ()
	M5(( M1 () ) ( << ), << M5 (M1(),M2(->),M5 (AX <<,+,->)), - M2 ()) M0 (,,M0 (,,M5(, - <<, ))) M5(M3 (.,), M4(), M3(:, 0x10) ( M0(, BX, MOVQ) )) /* one */
#endif
#ifndef M0
#ifdef M3
	M2 (-> M3 (,MOVQ M1 ())) M5 (M0(, MOVQ, ) M4(:),,-> ADDQ) AX /* one */
	0x10 $ ( M3(( ADDQ ), ADDQ) ) M1()
#else
	M4(M5 (0x10,M3(, +) M5 (ADDQ,. :,: 8),8)) M5 (.,M5(, , 8 M5(8 ., 0x10, )) M2(),.) // a comment
	M0 (,,R8 .) M0 (,M3 (ADDQ,) BX,) // a comment
	M1()
#endif
#else
	M3(M3 (( -> ) M2 (),M1 () M4()) 0x10, ) // a comment
	M3 (<< M2 (M5(0x10 8, -> $, BX)),) M4 () M2 () M0(:, M4 (M3(MOVQ, )) +, ) M5(<< M2(M0(, :, AX)), M0(, R8, ( $ )), ( M0 (MOVQ,,: 0x10) ))
#endif
#else
	M5(R8 M4 (), , R8) // a comment
#endif
#define M6() M3(, ) BX .
	M1 () M0(( ( $ ) ) M2(), M3(M1() MOVQ, M1() M0 (,0x10 :,)) M2 (<< +), ) /* one */
#define M7(a) -> M5(a a, R8 M5(:, $, ), : a) a M5 (,M2 (8 -),a) .
#define M8 
	M6 () // a comment
#define M9(a, b) \
 M0(M5 (,a +,8 a) AX, M8, M5 (ADDQ,a,) a)
#define M10 \
 M7()
	M9(, M2(M5(MOVQ MOVQ, , ADDQ) M10) AX) -> M10 $ /* one */
#ifndef M1
	M0(0x10, :, ) /* one */
#else
	+ R8 // a comment
	- BX -> . $ // a comment
	<< M1()
	M4 (AX M9(M2() M2(- 0x10), M2(.) 0x10))
#endif
	M0(M2 (), , ( M7 (<<) )) ( AX ) // a comment
#define M11() ( ADDQ ) M2 (M9 (:,.) M2 ())
#undef M11
#define M12 \
 ( M5(<< ADDQ, ->, 0x10 .) ) .
#define M13 << M2(MOVQ M6 ())
#define M14 M9(, 8 M10)
#define M15(a, b, c) M6 () \
 a M14
	( M3(M9 (,: +) M7 (.), ( -> ) ( : )) ) R8 -> ( M1() ) 8
#define M16 M8 0x10
#ifdef NONE
#ifndef M10
	M6() $ M15(, 8, M6() M15 (( . ) M13,M16 <<,M2 (8))) M12 M3 (,)
	-> M0 (M3 (M14,BX) M7(M12 +),M5(AX, , M5(, BX 8, )) R8,) /* one */
#else
#ifdef M2
	M4 () M10 M7 (M4(M5(: ADDQ, , )) M9 (M8,)) M13 /* one */
	-> << M14 // a comment
#else
	M10 8 8 /* one */
#endif
	M5 (,M10 M13,( : )) M0 (,( M14 ),ADDQ) M4(AX $)
#endif
	M14 M15 (M14 0x10,,MOVQ :) M15 (M2 (M9 (R8,)) M7 (),( M8 ),M14 M4(M16 ADDQ)) // a comment
	-> M4 ()
#endif
#define M17 + << \
 M0 (,ADDQ,<<)
	M9 (,0x10) M14 R8 /* one */
#define M18() 
#ifdef M6
	BX
	BX ->
#else
#ifndef M18
	M15(M10 M18(), M3(, M2()), ADDQ BX) ( M5 (.,,M0(, 8 BX, R8)) ) /* one */
	M10 << M5(, M18(), $ M1()) . // a comment
	( M10 ) M4 (M8 $) M4(<<) M1 () /* one */
#else
	ADDQ M15(, ( AX ), MOVQ) // a comment
#ifndef M0
	M5 (M14,,) ADDQ M10
	( M17 ) M6() M17 M8
	M16 M8 M7(-> AX)
	M15(M1 () M1 (), M13 ( M18 () ), M16 M9 (( - ) 8,. ADDQ)) M4(0x10 ( M9 (,) )) /* one */
#else
	M4 (( M14 ) M13) M10 M16 BX /* one */
	( R8 ) /* one */
	( MOVQ ) M16 M9 (,0x10 AX) M1()
	M4 () ( M16 ) M9(M0(, <<, ), M7(M7 ())) /* one */
#endif
#endif
	M13 - // a comment
	BX M5 (0x10 ( M17 ),ADDQ,M12) M4 () M9(M13, M6() M4(BX M1())) ( ( M4 (BX) ) )
#ifdef M3
	M2 (M8) << M18 () M12 // a comment
#ifndef M16
	M1() M18 ()
#else
	ADDQ M17 M18 () /* one */
#endif
#ifndef M8
	<< AX
	M10 M10 M1 () ADDQ /* one */
	MOVQ M4(M9 (M1 (),M6 () MOVQ) $) M14 AX M13
	+ ( - ) M7(MOVQ M12) ( . )
#else
	M18()
	M6 () // a comment
	MOVQ R8 M17 /* one */
	M5(-> M14, MOVQ, ) M18 () M1 ()
#endif
#endif
#endif
#define M19(a, b) 
#define M20(a, b, c) 
#define M21(a, b) \
 :
#define M22(a) a M12 \
 a
#ifdef M6
	M2 () AX ( ( + ) ) M9(, ) ( M21(M16 M5 (,,), M4(R8)) )
	M3 (,.) M13 /* one */
#else
#ifdef M3
#ifdef NONE
	M20(, , ) M10 M9(M2(), << ->) M5 (,M15(, M18() ADDQ, ) M20 (BX M1(),M16 M14,( 8 ) M7 ($ AX)),BX) /* one */
#endif
#endif
	0x10 . M9 (ADDQ M16,M8 .) R8 /* one */
#ifdef M20
	0x10 M9(( ( - ) ), ) M5 (M8,M4(:) M16,) ( M16 )
	M21(M5 (M18(),M17,), ) ( M18 () ) -> +
	M9 (,AX :) ( ( M8 ) ) AX $ // a comment
	: // a comment
#endif
#ifdef M1
#ifndef M22
	M8 M18()
	8 - M21 (,)
#endif
	AX MOVQ -> ( + )
#else
	M1() M3(M17 M20 (( ADDQ ),M17,M4 (.) M1 ()), ) M1 () 8
	<< M6 () ADDQ + /* one */
	M19(M10 M20 (M0 (,-,ADDQ R8) ( << ),.,( << )), ADDQ) M6() ( 8 ) /* one */
#endif
#endif
#define M23(a) 
#define M24() M0(M4(<<), M14, ) M14 M2(M15 (AX ADDQ,.,-) ->)
	-> M21 (M4 (),M21 (,M5(, :, AX <<) M14)) ( M15(R8, , M4 ()) ) M20 (,M22 (<<) :,M10 .) // a comment
	( ( MOVQ ) ) $ 0x10
#ifndef M4
#ifndef M22
	M5(, M5(<<, , ) M3 (,+), ) /* one */
	M21(, M5 (,,)) M10 /* one */
	M16 // a comment
#endif
	M20 (M7(M2(ADDQ)) R8,,) 0x10 M0 (M10,M13 M7 (R8),M22(( $ )) MOVQ) M19(MOVQ, M10)
#else
	M1() /* one */
#ifdef M15
#ifdef M12
	. ADDQ // a comment
	M21(M2() M16, ) ( M14 ) // a comment
#else
	M0 (,BX,: M1()) M14 M16 M6() M10 /* one */
	M17 /* one */
	M0(M9(, ), , $) M4 (M1 ()) $ 8 /* one */
#endif
	M6() M1() AX $ M21(, M7(( : ) M13))
	M16 M22 () M5(M1 (), , ) /* one */
#else
#ifdef M13
	M22 () + ( ( M1 () ) ) -> M18() // a comment
	( M15 (,,MOVQ) ) - M16 /* one */
	M8 M21(M15 (-> M12,,. M6()), ) // a comment
#endif
	M21(( BX ) M23(), M16) M20(, 8, M22(<<)) M15 (,,) + /* one */
	0x10 ( -> ) M5(, , ) M15(M1() $, <<, ( $ )) M23 (M15(<<, , ->) M4(M23 (R8 :) M21(, 0x10)))
	M15(, ( -> ) ( M7 () ), ) ( M20 (M24 () M12,,M17 M16) ) BX /* one */
#endif
	( << ) $ 8 // a comment
#endif
#define M25(a, b) + $ M4 ()
#undef M25
	$ ( << ) M17 /* one */
#ifdef M7
	M19 (,M4 (M20(, , )))
	M5(M21(M10, BX), ., ) M4 () BX + M9 (,M0 (,$ M12,)) // a comment
	-> // a comment
#endif
#ifdef M3
#ifndef M1
	MOVQ M20(, M4(M6 () M15 (BX -,,0x10)), M5 (M22(.),M17,M0 (<< R8,<<,$ <<) M3 (MOVQ,)) BX) M14 M22 (AX M16) // a comment
#ifdef M18
	8 /* one */
	M19(, M6() M24 ()) M13 M15 (,<< M7(),) 8 AX
#endif
#else
#ifdef M6
	M7 (8 M14) ( M19 (M24(),M18 () M2 (+ ADDQ)) ) -> <<
	<< M23()
#else
	M9 (BX,8 M5 (M7(AX BX),,M8 M18 ())) M17 M4 (M6() M16) M4() :
	( + ) + M7(M5 (->,,( 8 )) M7 (-> M24 ())) // a comment
	M2 (M14 <<) << AX // a comment
	. R8 M6() // a comment
#endif
	8 << M10 ( M21 (( << ),M21(, )) )
#ifdef M23
	M10 M24 () ( M6 () ) M0 (,,R8) /* one */
#endif
#endif
	M20 (M5(( + ), R8, 8) M19(, ),M7 (M9(0x10, << R8) M18()) M16,) M1 () -
#else
#ifdef M8
	. ( M21(:, M5(MOVQ 0x10, AX, - .)) ) /* one */
	M17 0x10 // a comment
#else
	0x10 ( + ) M3 (,) /* one */
#ifdef M6
	M13
	M18 () M19(( ( . ) ), + M2 (( BX ) M1 ())) << $
	M2 (M16 M15 (. M18(),,8)) ( M23() ) M22 (-) M17 // a comment
#endif
#endif
#ifndef M5
#ifdef M14
	M2 () M2() AX . M8 // a comment
	-> M7(BX) M21 (M21 (M21 (AX,0x10 ->) M0 (,ADDQ,R8),),) M5(, M24 (), BX ( M1() )) <<
	M16 M6 () ADDQ M3(, ( M7(R8 R8) )) /* one */
	M18 () MOVQ M2(+ M7(M2(ADDQ $))) // a comment
#endif
#ifndef M14
	M24 () R8 // a comment
	M6 () - $ M20 (,M14,)
	M7(M1()) M3 (ADDQ,) // a comment
	ADDQ
#endif
#ifndef NONE
	M0(( : ) ( M9(-, -) ), M14, M20(, M14, M14 M19 (,R8)) M13) ( M21 (,) ) M2 (( ( ADDQ ) ) M3(M3 (0x10 -,MOVQ), )) M7 ()
	M8
	M13 // a comment
	( M6() ) M8 M22 () /* one */
#endif
	M24 ()
#endif
#ifndef M16
	M14 M0(R8, , M13) M1 () // a comment
	M6() // a comment
	ADDQ M13 M19(, ) 0x10 // a comment
	$ M4()
#endif
#ifndef M24
#ifndef M7
	M10 // a comment
	M0 (M19 (( - ) M7 (R8 BX),M6 () M23 ()),M13,) . ADDQ -> M17 /* one */
	0x10 M24() M18 ()
#endif
#ifdef M18
	0x10 /* one */
	M3 (M0(0x10 M5 (,$ -,:), , ),MOVQ) M17 << BX M22(M18 ()) /* one */
#else
	M12 ADDQ BX M2 () MOVQ // a comment
	( + ) BX M6 () M19 ($ M1(),) << /* one */
	M8 /* one */
	. M0(, M20(R8, M21 (ADDQ ADDQ,ADDQ AX), ), M20 (,8,) .)
#endif
#endif
#endif
	M15(BX M24 (), M14, 8) M19 (M2 (M20 (0x10,-> 0x10,BX 8)) M10,) M1 () M19(, M4(M4(BX -))) . // a comment
	.
#define M26() 
	R8 R8 ( 0x10 ) MOVQ M0(, M6 (), M0 (( : ) M6 (),<< M4(-> MOVQ),)) /* one */
#ifndef M5
	M22 () M12 M8 M4 (R8)
	( M19(, ) ) M1 ()
#ifndef M3
#ifndef M2
	8 M26() M4 (M12) . M7 (( BX ) ( M22 () )) // a comment
#else
	M8 MOVQ M16 M4 (M10 ADDQ) M20 (0x10,.,)
	M4 (. 0x10) << /* one */
	. - M0 ($,AX,$) M4 (M12) ( $ ) // a comment
#endif
#ifdef M15
	M21(M19 (M3(: ->, R8 $),M8 MOVQ), ) ( 8 ) M16 ( M5(, , ( R8 ) M17) )
	8 M7 (M23 (M18() M9(<< ->, .))) -> -> M7(.) // a comment
	<< M22 (M1()) M0(M1 () M23(), , ) // a comment
#else
	M8 M18 () // a comment
	:
	M23 (M24()) M16 M9 (M0(M13 ( ADDQ ), , M6 () M13) BX,->) M2() ( -> )
	0x10 M2() ADDQ M18 () // a comment
#endif
	M3 (M17 +,AX M19(, M12 M21(, -))) ( - ) M9 (0x10 M8,) R8
#else
	M13 $ M9(, M22(M21 (,-)) ( M21 (,) )) /* one */
	M5(. +, - M0(M16, , M5 (,,: 0x10) M22(BX)), ) M13 /* one */
	M21(M0(( R8 ) M26(), M23(), ) M6 (), ) M8 ( M26() )
#endif
	ADDQ /* one */
#else
#ifdef M7
#ifndef M6
	M15 (,,( M20(<<, , ) ) MOVQ) // a comment
	ADDQ /* one */
	M26 () // a comment
#endif
	M3 (,( ( R8 ) )) M24 () - . M4(M23())
#else
#ifdef M5
	0x10 R8 MOVQ M7 (M7 (M17)) ( M3 (M0(0x10, <<, R8 :) ( MOVQ ),M0 (,BX MOVQ,)) ) // a comment
	M13 M1() R8 M16 // a comment
	M24 () /* one */
#else
	M8 M14 M4(M1() ( M13 )) M0(, - ( M15(BX, , MOVQ) ), ) .
	M24() M8 . M17 ( 0x10 ) /* one */
#endif
#ifndef M9
	M1 () M18()
	M18 () /* one */
#else
	M26 () ( 0x10 ) /* one */
#endif
	+ /* one */
	M4(0x10) M20 (M26(),M26 (),8 M1())
#endif
	M2() M7 (M21(M19 (. ->,), ( + )) M1()) /* one */
#ifndef M23
#ifdef M24
	+ M14
	M12 ( M12 ) M12 M21 (M17 M23 (),ADDQ) - // a comment
	M4 () M24 () M17 << M9(M4(), M4 (R8 M23(ADDQ -)) -) /* one */
#endif
	. /* one */
#ifndef M10
	M0(( M15 (- 0x10,,->) ) -, M20($ <<, 8, ) M14, ) 8
	M15 (,,M19 (( ADDQ ) M17,->)) MOVQ // a comment
	M16 BX /* one */
	M5 (,ADDQ M20 (,M10,),BX) M3 (,) M15(, , -) M8 M20 ($,,) // a comment
#endif
#ifndef M13
	AX M18 () BX /* one */
#endif
#else
#ifndef M24
	M13 MOVQ ( M8 ) M20(, M7(), M5 (- MOVQ,,M10) -) /* one */
	M12 /* one */
	M9 (+ 8,) ( M24 () )
#endif
#endif
#endif
#ifndef M3
#ifndef M22
	M10 . // a comment
#ifndef M20
	( M7 (M20(->, - -, ) AX) ) /* one */
	( M20(., . R8, M12) ) MOVQ // a comment
#else
	: M13 M4() // a comment
	AX M20(M23 () MOVQ, $, ) 8 // a comment
#endif
	M12 M22 (M21 (: .,MOVQ) ( 0x10 )) : M16 AX // a comment
	M8 /* one */
#else
	M1 () M16 ( M9(M10 M7(0x10), ) ) M16
#ifdef M2
	M0(M21(- M23 (ADDQ), BX) -, M8 M2 (M8), M14)
#else
	M12 // a comment
	( M12 ) /* one */
	M17 /* one */
	MOVQ << M18 () M4 () M21 (+,M17) // a comment
#endif
	M4() M9 (+,( M14 ))
#endif
	$ /* one */
#else
	M10 0x10 : M14
	( M14 ) /* one */
#endif

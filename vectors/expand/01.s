#define M0 ( 0x10 ) \
 ->
#define M1(a) \
 ( << ) M0 ( a )
#ifndef M0
	M1 (( M0 )) /* one */
	+ ADDQ M1 () <<
#else
	M1 (M0 M1 ($)) $ /* one */
#ifdef NONE
	M0 M1(- ( M0 )) M0 // a comment
	M1(M1 (M0 M0) ( M0 )) M0 8 M1 (M1(( : ))) -> /* one */
#else
#ifdef NONE
	M1() AX M0 M1(: M1(0x10))
#else
	M0 8 MOVQ
	M0
	M1(: +) M0 /* one */
	: ( M1 () ) R8 M0 M1 (M1() MOVQ) // a comment
#endif
#ifndef NONE
	M1() M1(M0 8) M1 (R8 M0) - $ /* one */
	M0 + // a comment
#else
	M0 M0 /* one */
	M1 (M1(M0) -) 0x10 M0 M1() AX
	M1 () M0 $
	M0 M1 () MOVQ ( M1 () ) BX // a comment
#endif
#ifndef NONE
	M0 M0 M1(R8 ( $ )) MOVQ
	R8
#endif
#endif
#ifndef M1
#ifndef M1
	-> + // a comment
#endif
	M0 M0 M1 () // a comment
	( 8 ) MOVQ M1 (R8 M0) ( ( M0 ) ) 8 /* one */
#ifdef NONE
	M1(M0)
#endif
#else
#ifdef M0
	. // a comment
	M0 M0 . /* one */
	<< BX M1 (M0 M0) M1(M1(M1(0x10) ( - )) -) M1(M1 ()) /* one */
#else
	: BX M1 () M1 (M0 :) /* one */
	BX M1(M1 (M0 +) M1(M0)) ( M0 ) M0 M0
	M0 // a comment
#endif
	: ADDQ M0 8 8
#endif
#ifndef M1
	M1 () M1(( + ) M0) // a comment
	M1 () M1 (M0 M1(->)) M0
#endif
#endif
#define M2(a, b) b -> : b ( M1(ADDQ 0x10) )
#define M3(a, b, c) ( b ) M2 (,( << )) M1 (8 <<) M0 M2(c b, M1 (-) <<)
#define M4(a, b, c) ( M1(8 .) ) \
 c
	M3 (M3 (M4 (,ADDQ :,+) M0,( R8 ),),,M0) : M4(AX M4(M1(AX), $, M4 (: .,8 BX,:) -), M2(M1 (), M3(, , : ADDQ)) AX, ) ( BX ) 0x10 // a comment
	M2 (,ADDQ M1(M1())) M3 (M3 (M1() .,M3(BX ., MOVQ AX, - AX),MOVQ M0) M2(, M0),,M1(M2(R8 BX, ) -) M4(M0 +, M4(ADDQ, - ->, ), )) . M0 + /* one */
#undef M4
#define M5() 
#define M6 8 \
 0x10 M5()
#define M7 M2 (R8,.) M1 (( $ ) M3 (AX 0x10,<< -,MOVQ .)) M3 (M3 (ADDQ,,:) M2(<<, MOVQ AX),M2 (R8 $,. ADDQ) AX,)
	$ -> ( M3(+ M0, , -) ) M7 M6
#ifndef M1
#ifdef M1
	M3(, M7 M7, M1(M1 ($) ->)) R8
#else
	ADDQ M5 () ( M7 ) MOVQ M2(MOVQ M7, M6) // a comment
#endif
#endif
#ifndef M5
	M1(M1 (AX M0) -) M2 (: M0,) M3($, 0x10 8, 0x10) /* one */
	$ -
	R8 << M2 (M7,8) // a comment
#ifdef M2
#ifdef M0
	ADDQ M6 M0 M5 ()
	M3 (M6,,( M6 ) R8) M7 . M1 (( ADDQ ) R8) M3(, ADDQ M5 (), )
	+ M3 (+ ->,M3(, , << M5 ()) ADDQ,) M1 (M2 (,( MOVQ ))) M3 (M6,M1 (M3 (,->,)),M0) // a comment
#else
	M3 (M1 (),,) MOVQ /* one */
	BX ( M6 ) /* one */
#endif
	M0 . ( M1(.) ) // a comment
#endif
#else
#ifdef M6
#ifdef M2
	ADDQ
	M5() M1 (M6) M6 // a comment
	M2 (,->) - R8 // a comment
#else
	M3 (:,M0,M1() M5()) R8 M3 (M2 (,$ M7) M5(),M1(),M7 M7) $ /* one */
	M7 M3(M5(), ->, ( M0 ) :) // a comment
	ADDQ M7 M6 M2 (M3 (,,:),) - /* one */
	M2 (M5 () ->,BX) ( M2 (,) ) $ M6 M6
#endif
#endif
#endif
	M3 (M7,M6,) M0 M0 AX M6
#undef M7
#define M8(a, b, c) 
	8 ( 8 ) ADDQ M2 (M6 M3 (M8(BX 8, 0x10 ., ),M8(, AX 8, . AX),R8 M3(-> +, MOVQ BX, :)),)
	M0 M3 (,,<< M5 ())
#define M9(a) 
#ifndef M0
	M3(, , M8(, M6 :, ->)) M8(, $, ) M2(( $ ) R8, M8(( AX ), M1 (BX <<), M9 (ADDQ) M0)) M2 (( + ) M3 (M3(8 ., , ),,M5()),) /* one */
#else
	( M6 ) M2 (ADDQ :,M3 (M1(8 +) R8,M1 () ( + ),M0 ( + )) R8) M5() // a comment
#endif
	( M0 ) M8 (M6 ADDQ,,. M9 ())
#define M10(a, b) M3(, -, ) a AX
	M10(, M8 (: M5 (),MOVQ,. M8 ($,,. ADDQ)) 8) M0 ( M10 (,) ) M6 // a comment
	( M1(M10(AX $, ) ( 8 )) ) M6 .
#define M11() 
	R8 8 /* one */
#ifdef M11
	M5 () ( M1 (MOVQ) ) M3(M6 M5 (), , ) M0 // a comment
#else
	M11 () ( M2(, ) ) M11 () 0x10 M0
#ifndef M9
#ifdef NONE
	M10(, ) // a comment
#endif
	BX
#ifdef M5
	M1 () M11() 8 /* one */
	M9 () - . M11() /* one */
	M10 (.,( ( 0x10 ) ) ( . )) ( M5 () ) M11 () M10(M0, -> M6)
	$ : // a comment
#else
	M0
	R8 M6 M11 () MOVQ M1(M1 ()) // a comment
	M0 << -> + : // a comment
	M8(-> ADDQ, , -) M3(, M3 (M5 () MOVQ,R8 M2($ $, - :),8 M5 ()) M3(<< R8, M3 (,,+ R8), ), M0 M0) M0 // a comment
#endif
#endif
	M11 () M3 (,,BX) // a comment
#endif
	M1 () M1() M1 ()
	AX
#define M12(a, b, c) \
 MOVQ ( M3(a c, c b, b <<) )
#define M13() \
 : 8 8
	- ( M8 (M6,M6,M9 (AX R8)) ) AX // a comment
#define M14(a, b, c) a c \
 b ( b ) M8 (,M9 () ADDQ,c a)
	$ -> M14 (M12 (,,M5 ()) MOVQ,,M8(, BX, MOVQ)) M10 (M3 (,( + ),+ .),M2(BX M1(->), ) M2 (,M3 (BX :,$ <<,MOVQ 0x10))) M6 // a comment
#define M15 M13 () R8 ( - ) M6
#define M16 \
 ( M2(R8, 0x10) ) M2(M1(-) M12 (- R8,AX 8,-), ) M15 M13() BX
#define M17(a, b) ( + ) - \
 8
	M13() . M9(( M2($, ) ) M1 (( AX ))) ( - ) /* one */
#define M18(a, b, c) \
 M14(b, , )
#define M19(a, b, c) \
 M18(M18(R8 ->, , :) ADDQ, M18(b +, BX, ), ) M16 M17 (M1(c 8),AX)
#ifdef M2
	ADDQ M16 M15 // a comment
	M19 (-,+ M5(),) /* one */
#ifndef M8
#ifndef M3
	+ M10 (M17 (M11 () M11(),M5()),M17 (( << ) ( -> ),M14(AX BX, MOVQ -, )) M13 ()) // a comment
#endif
#ifdef M11
	AX M13 () . BX // a comment
	M8(ADDQ M13(), ADDQ, . ->) M12(<< M10(, ), M5() ( M5 () ), << -) M6 M17 (M2 (,M5() R8) M2 (M18 (<<,,),),M18 (,,)) M14 (M18(: M15, ( 8 ), M19(, , )),,M16 ( M18(, , R8) ))
	-> M1 (M18(( . ), , ( AX ) $) M17(M2(0x10 +, ) <<, ( 8 ))) M12(M8(( ADDQ ) M3 (,,ADDQ 8), , ), M15 ( M1(R8 0x10) ), .) /* one */
#endif
#else
#ifndef M6
	( M14 (: ( -> ),M0 M5(),) ) M11 () M11() M5 () 0x10 // a comment
	+ M0 M10(-> M0, M18(M14 (,,- <<) ADDQ, M12(MOVQ MOVQ, MOVQ +, BX) M8 (,<< 8,R8), ) ( M0 )) . M15 // a comment
	M1(-> M15) M5 ()
	MOVQ M16
#else
	M18 (M0,M11 (),) 8 ->
	M0 M17(M11 () M18 (M9(AX),( - ) M19(MOVQ, . AX, ),M3(, - +, ) +), :) ADDQ 0x10 // a comment
#endif
#endif
#ifndef M3
	M5 () ( M9(M1 (BX) ADDQ) ) M1() M11() // a comment
#ifndef M17
	BX M9 () R8
	M11 () R8 -> M9() M5() // a comment
	M14 (M1 (M3(-> :, ->, ADDQ .)) +,M6,M3(, , )) M11() M11() : 0x10 /* one */
#else
	ADDQ M3 (,,) M0 M0 // a comment
#endif
#else
#ifdef M19
	M5()
	M10 (,M10 (M19 (+,R8 ->,AX),)) /* one */
#endif
#ifndef M12
	M18(, M19(M19 (BX,,R8), , M19(AX BX, :, MOVQ) M1(0x10 .)) ADDQ, M9() M17 (8 -,)) $ M9(.) - ( M0 ) // a comment
#else
	: ( BX ) M18 (,R8,M12(, M11 () 0x10, M18(R8, , : AX) AX) M16) :
	( ( MOVQ ) ) /* one */
	M10 (M17($ M12(, , <<), M14(, , )),M19 (M1 (R8) 0x10,,))
	M10(M0, ) 8 M15 M19(<< M6, <<, M13 ()) // a comment
#endif
#ifndef M14
	M18(, M2(8, ), M0 M17(, )) M3(M16, , ) M8(( M12 (8,.,$ 8) ), - M5 (), 8) ( - ) AX // a comment
	M17 (M18 (-> M6,M14 (<<,,$ BX) M10 ($,ADDQ),) +,M6 M2(, ))
#else
	( << ) M9 () M0 /* one */
	( M0 ) 0x10 M0 $ /* one */
	-> - 0x10 << /* one */
#endif
	. ( MOVQ ) -> ( M13() ) // a comment
#endif
#endif
#define M20() 8 AX 0x10 -
#ifndef M1
	M20 () : // a comment
#ifndef M2
#ifndef M1
	M3(ADDQ, . M5(), ) M3 (M3 (,M13(),-) M19(M6 M14 (- $,: MOVQ,), M2 (,R8 -), M3(: AX, << $, 8 AX)),,AX) MOVQ /* one */
	M5() M16 M1(M18 (M8(, $ MOVQ, AX),M10(, ),M16) ->) M13 ()
#else
	M10 (-,M0 .) R8 /* one */
	M13 () M8(, , M12 ($ ->,M14($ ->, 0x10, <<) ( AX ),-> 0x10)) /* one */
	M5 () /* one */
#endif
#ifndef M17
	: << BX +
	M5() ( M5() ) M8 (M18 (M11() M12 (,:,.),M14(, , $ <<) M3($ MOVQ, $, << ADDQ),),,)
	- . R8 /* one */
	M17 (+,ADDQ M15) M9(M20()) /* one */
#else
	AX BX M17(, M14(, R8, ) M10(R8, )) M10 (M1(M0 ( << )) M6,ADDQ M20 ()) // a comment
#endif
	: M15 -> .
#else
	M16 M12(BX M10(M11 (), M10 (R8,-> +) M10 (,AX MOVQ)), M10 (M1 (),M13()), M10 (M5 (),M1()) M11())
#ifndef NONE
	- -> M15 R8 // a comment
	AX
	- M14 (,M8 (,,M6 BX),M18(., , ( AX )) M9()) ( M11 () ) /* one */
	:
#endif
#ifndef M6
	->
	M14 (AX ( BX ),,) M8(( + ) M2 (ADDQ M10 (,8 -),), ( 8 ) $, ) ( M20 () ) M1(0x10) -
	M8(M11 () M9 (M2(8 :, MOVQ)), , -) M16 M9 (M18 (,M6 MOVQ,M17 (8,) ( BX )) M1 (: MOVQ)) // a comment
#else
	M18 (+,,) M17 (M18(M17(, ), $ ( 0x10 ), ( -> ) BX),-> M12(, 0x10 M15, M19(, $ <<, <<) M2 (R8,))) // a comment
	M14(R8, : M12 (M1 (),M16 M1 (+),<<), )
#endif
	. M14(, ->, ) ( ( M5 () ) ) // a comment
#endif
	M9 (( ( 8 ) ) M12 (,,)) M1 (M10(M5 (), ) M15) M5()
	M17 (,M9(0x10 M0)) M9 () << // a comment
#endif
#define M21(a, b) a b ADDQ \
 a
	M13 () /* one */
#define M22(a, b) 
#define M23 0x10 ( 8 ) M2(( . ) M12(-, 8 <<, ADDQ), ) M5() \
 -
#define M24(a, b, c) 
#define M25(a, b) 
	M9 (M5()) M25 (-,M24 (M17(, . +) BX,,M24(8 AX, , ))) . M0 M10 (,M25(, )) /* one */
#define M26 \
 M23 M25(M11 () 8, 0x10) M23 <<
#define M27(a, b, c) 
#define M28 BX
#define M29(a) \
 - BX 8
#define M30() \
 0x10 M11 () M6 ( 8 ) M29(M9(R8) .)
#define M31(a) a . a
#ifdef M27
#ifdef M26
	M0 8 : // a comment
	-> BX - // a comment
	M10(M12 (:,M28,), M6) BX M0 8 M2(, ) // a comment
	( M11 () ) M15 M23
#else
	M26 M17(M1 (( R8 )), ) /* one */
	R8 M11 () M28
#ifdef M24
	M28 AX M26 MOVQ
	( M28 ) M26 M21 (8 M29(( ADDQ ) M8(., +, MOVQ)),( M16 )) M2(, M31 (.)) M20 () /* one */
#endif
#ifdef NONE
	M2 (,+ ( M20() )) M18 (M17 (,AX M11()) M26,,M16 ADDQ)
	M21(+ +, 0x10 M5 ()) M31(( M8(, :, ) )) M20 () ( $ ) M21(ADDQ -, .) /* one */
	.
#else
	M29 (M10 (BX AX,M3($, MOVQ MOVQ, ))) M29(0x10 +) - /* one */
	0x10 M11() - // a comment
#endif
#endif
#ifdef M29
#ifndef M10
	M30()
	AX M21 (MOVQ,)
	M3 (,M28,M31 (M28)) M18(, , M26) /* one */
	MOVQ << M13() M29(BX M27(( << ) BX, M9() M13(), )) // a comment
#else
	: ( M8(M28 ->, M26 ., ) ) . BX M24 (M28,$,) // a comment
	( M27(MOVQ M5 (), 0x10, BX ( BX )) ) M25(M13 (), ) /* one */
	. ( M13 () ) M31 (MOVQ) M11 () /* one */
	M1(M24 (-,BX M1($),)) ( ( M10 (,- 0x10) ) ) M11 () M1(M25(+, M3(R8 ADDQ, -> MOVQ, R8) MOVQ)) M3(, +, )
#endif
	M31 (-> M21(0x10, M5() M8 (<< +,,))) /* one */
#ifndef M22
	M11() M13() << /* one */
	<< M22 (M20() M18(M5(), . M9 (:), AX :),M0) // a comment
	M10(0x10, ) M5() M14 (,,M22(. AX, .)) // a comment
#else
	M2 (,) M27(M28, M16, <<) MOVQ // a comment
	- M28 // a comment
	M12(, R8, M5() M30()) M30 () M9() /* one */
#endif
#else
	( BX ) ( M16 ) // a comment
	M13() M9($) M24(M12 (,,) M17 (M19 (,<<,ADDQ ->),M5 ()), , +) M19 (( ADDQ ) M12 (,( 8 ) ADDQ,.),M26,8) /* one */
#endif
#endif
#undef M31

#ifndef NONE
#ifndef NONE
#ifndef NONE
	( - ) ( ( R8 ) ) ( : )
#else
	( ( ( R8 ) ) ) ( BX ) ( ( ( - ) ) ) ( ( 8 ) )
	( ( ( . ) ) )
	( - ) ( -> )
	( $ ) ( ( ( - ) ) ) ( R8 ) ( ( ( -> ) ) )
#endif
#ifndef NONE
	( ( BX ) )
	( ( ( : ) ) ) << ( + )
	( ( 8 ) ) ( ( ( << ) ) ) ( ( 8 ) ) . ( ( ( ADDQ ) ) ) // a comment
	-> ( ( ( 0x10 ) ) ) ( ( 0x10 ) ) ( ( AX ) ) /* one */
#endif
#else
	( ( ( R8 ) ) ) ( << ) ( ( ( ADDQ ) ) ) R8 ( ( ( -> ) ) ) /* one */
#endif
#else
#ifndef NONE
	0x10 -> + /* one */
	( ( ( MOVQ ) ) ) ( ( . ) ) BX ( ( ( R8 ) ) ) ( ( ( 0x10 ) ) ) // a comment
#endif
	( ( ( 0x10 ) ) ) - ( << ) /* one */
#ifdef NONE
	. ( ( ADDQ ) ) - ( ( ( + ) ) ) MOVQ
#ifndef NONE
	-> MOVQ ( ( BX ) ) ( -> ) . /* one */
	- // a comment
#else
	( ( ( . ) ) ) ( ( + ) ) ( ( ( $ ) ) ) // a comment
	0x10 -
	AX ( ( + ) ) ( ( ( MOVQ ) ) ) AX // a comment
#endif
	( $ ) ( - ) ( ( MOVQ ) ) ( ( ( R8 ) ) ) MOVQ
#ifdef NONE
	( ( 0x10 ) ) $ AX AX
	( ( ADDQ ) ) ( BX ) ( R8 ) + /* one */
	( - ) /* one */
#else
	( ( << ) ) ( ( ADDQ ) ) ( ( ( BX ) ) ) /* one */
	( ( MOVQ ) ) 8 ( << ) ( ( ( MOVQ ) ) ) ( ( BX ) ) /* one */
#endif
#endif
#endif
#define M0(a, b) ( -> ) a a ->
#define M1(a) 
#define M2(a) \
 - M0(a ( AX ), ) M1(a a) a R8
#ifndef M2
	M2 () ( ( ( BX ) ) ) M2(M0 (M2(),AX)) M0(<<, ) AX /* one */
#else
#ifdef M2
	. ( M2($) ) M2(+) ( ADDQ ) << /* one */
#ifdef M0
	. ( ADDQ ) // a comment
	->
	M2 () M2 (M2 () BX) ( . ) -> // a comment
#endif
	- M0(M0(, ) $, ( M1(MOVQ $) )) /* one */
#ifndef M0
	ADDQ 8 // a comment
	M0 (,M0 (+ M1(),)) // a comment
	0x10 : ( M1(( AX )) ) M1 (M2 (- +))
#endif
#else
#ifdef M1
	M1 () M1(M0(, ))
#endif
#ifndef M2
	M2 (BX M2(R8)) << M1(M1 ($ M1 (AX)))
#else
	AX /* one */
	M0(M0(0x10 MOVQ, R8 M2 (<< .)), +) M0 (M0 (. M2 (),),MOVQ +) M0(M2 (M2 () -) M1(: M1()), ) M0(, )
	M2 (M1 (M0 (-,. ADDQ) 0x10) -) M0 (M1(),( M0(MOVQ <<, : MOVQ) )) M2 (-)
	M2(M1 (R8 <<)) M1(M1()) ( M0(->, M1()) ) ( M0(M2 (- 0x10) M1(), :) ) ( M2(M2(R8) M2(- $)) ) // a comment
#endif
#endif
	$ M2(( . ) ->) M2(M0 (,)) M2 () /* one */
	M0 (( - ),AX M1(M0(- ., AX -))) R8 R8 M0(, .) M1 (( MOVQ ) M2 ()) /* one */
	( M0(M1 (MOVQ .), ) ) M0 (M1 (M1(:) ( BX )) M1 (),0x10 M0 (M2(),M0($, ) M0(, : AX))) ADDQ R8 MOVQ /* one */
#endif
#define M3() - ( ( R8 ) )
#define M4(a, b) 
#undef M4
#ifndef M3
	M3()
#ifndef M2
	M2(M2 () MOVQ) . M1(M2(: M3 ()))
#else
#ifndef M1
	R8 M0 (M3 (),BX ( M0(, ) )) M0 (M1(. ( : )),M0 (. M0 (,-> ->),)) : M0(( M1() ), ) /* one */
	M0 (M2 (),) -> : // a comment
	( 0x10 ) M0(M3 (), ) R8 M0 (,M0 (M1(.) $,M3 ()) M1(BX M1 ($ +))) + /* one */
#else
	M3 () M3() . // a comment
	M0 (,0x10 M0 (MOVQ,( << ))) M1(M2(AX ->) BX) :
#endif
#ifndef M1
	( AX ) ( M0(, ) )
#endif
#endif
	M3()
#else
	M2 () M1 (M3 ())
	$ M2 () M2(M1 (M0(, AX))) M3() /* one */
#endif
#define M5(a, b, c) -> $
#define M6(a, b, c) 
	BX M1() // a comment
#define M7(a) 
	( + ) // a comment
	M3() - . // a comment
	M5 (8 M5(, M3 () ->, ),,) $ .
#ifdef M3
	M0(M0 (M2 (),) :, <<) M2 () // a comment
#ifndef NONE
#ifdef M5
	+ AX M0 (M7 (M2(<< +)),( M5 (- ->,:,0x10) ) ADDQ) M3() M6 (,( << ),)
	- M6 (,M3 () M3(),MOVQ) << M1 (( M5(, <<, +) ) M0 (,))
	. MOVQ $ ( M7(M5($ ADDQ, 0x10 0x10, -) :) ) ( M0 (BX M1(: 0x10),) ) /* one */
#endif
	M6 (,,M0 (+ M1 (- $),8 ( 0x10 )) $)
	M7 (AX) /* one */
	M1 (+) M3 () + // a comment
#else
#ifndef M7
	M3 () 8 8 M6(M3 () M1 (M3 ()), M6(M0 (:,+), BX, M7 () M3()), M7(M7($)))
	M5 (,M0 (M5 (+ ->,,) $,M1 (-)) BX,:) M7()
	+ . MOVQ // a comment
#else
	MOVQ ADDQ M5 (M5(M3() +, M7 (: ->) 8, 0x10 R8),M1 (<<) .,BX M5 (M2(MOVQ <<) M5(, BX, +),M0 (- 0x10,R8 ->) <<,M3())) M1(:) // a comment
#endif
#ifndef NONE
	M3 () // a comment
	( M2() ) M0(, M2(M0 (,<<) M3())) ( M2 (MOVQ) )
	M5 (M0 (M5 (R8,ADDQ,),M3() M6(, $, ->)) M0 (M7(8) :,),M7 (M2(-)),M5(, ( MOVQ ), M6 (,AX <<,. R8))) M3() M0 (,) // a comment
#endif
#endif
#ifndef M5
#ifndef M6
	AX $ M5 (.,M7(( - ) -),M3()) . 8
	- ADDQ ( $ ) /* one */
	M5 (,$,0x10)
#endif
#endif
#ifndef M1
	M0 (,) M6 (M2(),,M6(M7 (->), , )) BX M5 (8,,M3 ()) + /* one */
	M3 () M6(, , ) ( - ) /* one */
#else
#ifdef M0
	M6(- M2 (M6(, ., ) M1 (8 ADDQ)), -> M6(M0(0x10 0x10, ADDQ MOVQ) ->, M5(BX, 8 AX, 8 ADDQ) :, M0 (,<< BX) M7 ($)), M6 (,,( . ))) M3()
#else
	M0 (-> M1(),M7 () M2 (AX M5(ADDQ <<, , << +))) M6 (M7 (M2()) M5 (BX 0x10,M0(, 0x10),),MOVQ 0x10,BX) M0 (,+) M7()
	M3()
#endif
#ifdef M5
	M6($ ( M6 (BX,,) ), , ( M3() ) ( M3() ))
#else
	MOVQ /* one */
	$ ( 8 ) 8 M0 (M0(, M7() $),M2(M0(-, ) +)) M1(M6 (,,) M1()) // a comment
#endif
	M3() M2 () M3 () // a comment
	M5(( M6(<< -, , ) ) 8, , ) BX + M5 (( BX ),BX,) // a comment
#endif
#else
#ifdef M2
	( : ) $ M2() + M3() // a comment
	M1 (M7 ()) R8 ( ADDQ ) // a comment
#ifdef M3
	<< -> +
	M5(M5(M5(, MOVQ, 0x10 <<) 8, , M1()), M3() ( M3() ), . M5 (,( AX ) M2(- R8),M7 (MOVQ BX) M7 (. AX))) $
	M0(, M7(M5(<<, ADDQ 0x10, AX 8)) M0(, M6(, $, 0x10) M1 (+))) M0(, M7 (( MOVQ ) M6 (R8,,+)) M7()) M5(0x10, M2(M2() AX) M3 (), ) M6(M0 (M5(, MOVQ, BX),M0(BX, $) M7(0x10 ->)) M1($), , ) /* one */
	$ M1 () M6 (,,M0 (,M7() M1())) - M0 (: M2(->),$)
#endif
	M5 (( ( << ) ) M1(( . )),,) M3 () $ /* one */
#endif
	$ // a comment
	<< ( MOVQ ) M2 () M5(M5(M6 (AX MOVQ,. ADDQ,. BX) M7 (), , ( + )) M5 (M0 (,+ -),M7 (8 BX),<< MOVQ), , MOVQ)
#endif
#define M8() M2(->) M7 (R8 ( 0x10 )) \
 BX 8
	: M2 (( M5 (+,,$ +) ) ( M8 () )) + M0(, 0x10 BX) M1 () /* one */
#define M9() + M7 (M2 (AX)) ( M5 (BX,0x10,0x10 8) ) BX
	-> R8 M8() /* one */
#define M10(a, b) 
#define M11 ( 8 ) M8 () +
	M2 () ( + )
#define M12(a, b, c) b M10 (M9 () b,b M0 (+ a,MOVQ $)) b a
#define M13 \
 M3 () ->
	M5 (M7 (M13),8 M12 (M3() M3(),0x10 ( : ),),M2(( . ) M1 (+ ->))) // a comment
#define M14 M3() M9 () BX
#define M15(a) a a AX
	M5(, M5 (,M8 (),8), +) . 8 ( M15 (M13) ) M12 (,,( - ) ADDQ) /* one */
#ifdef M15
#ifndef NONE
	- M8() /* one */
	8 ADDQ M7() M2(M14 AX)
#ifdef M14
	M6(, , -> M3()) ( M2 () )
#else
	M10(, M3()) + M11 /* one */
	$
#endif
#endif
#else
	M11 M13 M15 () /* one */
	AX 8 M14
	0x10 // a comment
	M5(, ( ( << ) ), ) MOVQ // a comment
#endif
#define M16(a, b, c) $ b M11
	M14
#define M17(a, b, c) M6 (c a,M9() c,R8 a) c . c
	M9 () BX .
	BX -
#define M18(a) 0x10 a a . M9()
	M10(M0(, ) M12 (,M14,( - ) M17(AX, 0x10 8, AX .)), M17(R8 ADDQ, 0x10, )) + M12(M5(8 -, ( - ) <<, M3() M15 (R8 0x10)) M7 (M10 (MOVQ,$ $)), M11 M9(), M14) M12 (M8 (),8,M12(<<, , BX 8))
#define M19(a, b) b a \
 -
	+ ( M16(M8() M19 (R8 MOVQ,$), M19(, $), ) ) M1 (.) MOVQ M1 (.) // a comment
#define M20() \
 - -> M5 (,R8,M2() M17 (,-,+ -))
#define M21(a, b, c) - $ M12(M6(+ <<, , ), c, M11 M0 (AX AX,MOVQ AX))
#define M22(a) a M18(BX) << MOVQ
#ifdef M1
#ifdef M22
	M22() ( M17(M19 ($ +,$), <<, ) ) + // a comment
	M1() MOVQ M13 M7(M7 () M16(M10(, 0x10), , )) /* one */
#ifndef M19
	M19(, M22 () ->) M20() . // a comment
	M11 M9 () M14 /* one */
	ADDQ $ BX M16 (- 0x10,,M10(M0 (,0x10) M14, : M22 ()))
	M20() 8 BX
#endif
	<< M19(R8 M8(), M17(, M12 (0x10,,MOVQ +), R8)) M19(, ) M6(M3 () M20(), M15(), ) 0x10
#else
	-> $ M13 ( M17(M7(:) R8, , -) ) // a comment
#ifndef M5
	M14
#else
	M11 M0 (,) R8 /* one */
	M22() 8 . -> // a comment
#endif
	8 8 << // a comment
#endif
	M22()
	M9() BX ( ADDQ ) M10(M13, ) M15 () // a comment
	R8 M20 () ( ( << ) ) : ( M16 (,,( MOVQ ) M10 (<< .,MOVQ ADDQ)) ) // a comment
#else
#ifdef M10
	M10(8, ) R8 M8 () M10(( M18(0x10 ->) ), ( M0 (,0x10) )) M13 /* one */
#ifdef M7
	( -> ) M8 ()
	M9 () M22() R8 M14 M15 () // a comment
#endif
#endif
#endif
#define M23(a, b, c) a M11 b M8()
#define M24(a, b, c) AX
	+ /* one */
#define M25() R8 M6(, M12 (<<,- :,), ) ( + ) M24 (AX M14,,( 8 ))
	M11 + M3() M13
#define M26 
#define M27(a, b, c) \
 ( a ) a
	M3() M5 (AX,0x10 .,) // a comment
#define M28 M0(+ ( BX ), M10(, )) M8 ()
	M25() M13 M25 () /* one */
#ifdef M16
	M17 (M21 (M6 (ADDQ,+,R8 R8) M23 (,,ADDQ),M12 (->,8 8,),M17(, , $ $) .) M6 (,,),,) M20() M11 M12 (,M13 ( + ),) /* one */
	-> M20() /* one */
#ifndef M12
#ifdef M9
	- M16 (8,M2(M15(+)) M3 (),M11 M1 ()) M21(+ <<, , 0x10 M0(M11 -, M26 0x10))
	0x10 M26 M6 (+,M20 () M23 (M0 (R8 $,AX) M26,.,M23 (,ADDQ,BX)),M11) M13 // a comment
#endif
#endif
#endif
#define M29 M21 (,,$) M18(( 8 ) M12(. :, , $))
#define M30(a, b, c) : b
#define M31 M15 (M29) M13
#define M32(a) \
 M25()
#ifndef M11
	( ( AX ) ) - M6(M15(M7() M28), -, 0x10) /* one */
#ifdef M22
#ifdef M10
	M24(M6(M29 ( 0x10 ), M25 (), ), , ) . // a comment
	M7 (+) R8 // a comment
#else
	M28 /* one */
	R8 M16(8, , ) BX M25() -
	: BX M12 (,AX M17 (,M17 (<< R8,ADDQ,0x10 MOVQ) R8,M8 () <<),ADDQ) M13 M3 ()
	( M16(M16(, , -), M13, ) ) M0(0x10 M23(M29, M19(AX, : R8), M15 ()), M11 :) + /* one */
#endif
#ifdef M19
	R8 ( ( ( $ ) ) ) M23 (8 M20 (),AX,) M5 (( : ) 8,,) M3()
#endif
	M22 (M17 (,M23(AX, AX 0x10, $) M23 (,0x10 .,- <<),M27(<<, , ) M26) -) ( BX ) << AX
	M25 () M26 // a comment
#else
	M0(ADDQ, ) M26 0x10 ( M21(+ M13, M1(+) M25 (), M1(AX :)) ) /* one */
	BX . /* one */
#ifndef M31
	M7() ( M21(MOVQ, 0x10 M24(, , ), M13 ( MOVQ )) ) $ M1(M27 (,MOVQ,M23(AX :, MOVQ, )) M17(M25 () R8, , M18(. -) M18(<< 0x10))) M16 (M27(M11, M0(, $ <<), M30(ADDQ, , ) M3 ()) M16 (,M0(-, :) M28,<<),M21 (M8(),,M23 (BX,R8,)) M26,M11 R8) // a comment
#else
	M3 () R8 MOVQ /* one */
#endif
	( ( M23 (,$,) ) ) M11 M23 (,M16(, , AX M11),) M8() // a comment
#endif
#else
	( AX ) M3() // a comment
#endif

#define M0(a, b, c) ( c ) c \
 b ( 8 ) ( R8 )
#define M1() : \
 M0(R8 M0 (,ADDQ .,0x10), , ADDQ ( $ ))
#ifndef M0
	M0(, , M0 (,M0(:, , R8 8) R8,M1 ())) M1 () M1 () // a comment
	M1() M0 (,( ADDQ ) M0(, M0(+ $, AX, ), R8),) R8 $ M0 (( M1() ) +,$ M0(, 0x10 ADDQ, AX),BX M1()) // a comment
#ifndef M0
	M0 (,M0 (: .,-,<< M1()) M0(M0 (,ADDQ,), , ),M0(AX, , M1 ()) M1()) ( M0 ($ .,,M1()) ) // a comment
#ifndef M0
	( MOVQ ) ADDQ $ ( 8 ) M1 ()
	0x10 M0(, , ) BX 0x10
	M0 (- ( 8 ),M0(M0 (<< ADDQ,BX $,.) M1(), M1 (), ),) M1() AX M0(, AX BX, -) ( M1() ) /* one */
#endif
	8 M0 (R8,,M0 (,BX R8,M1 () M0 (. MOVQ,+ ->,+ $))) M0(( M0 (,$,:) ) $, , M1() M0(M1() +, M0 (->,,AX), )) + << // a comment
#endif
	8 M0(M0(M0(, , ), , ), , -> M1 ()) BX M1 () M1 () /* one */
#else
	M0 (M1 (),,( ADDQ ) M1())
#ifndef M1
	MOVQ /* one */
	M0(M1 (), MOVQ, ( ADDQ )) M0(0x10 ->, 0x10, M1 ())
#ifdef M0
	M1 () M0 (,,( AX )) AX /* one */
	M0 (,M0(, , M0(, MOVQ -, - -) M0 (,,)),M0(, M0(. :, R8, 0x10), ->) M1()) // a comment
#else
	M0(, M1 () R8, $) M0 (,M0 (M0(8, AX BX, ),8 R8,) :,) ( : ) ( BX ) /* one */
#endif
#else
#ifndef M0
	ADDQ // a comment
	M0(, M1 (), ) M1 () // a comment
	( << ) M1() M1()
	M1 () M0 (( . ),,) ( << ) + /* one */
#else
	ADDQ + M0 (,8,M1 ()) // a comment
	M1() M1() BX /* one */
	: ( M0 (,M0 (-> <<,,. -),) ) M1 () ( BX ) // a comment
	AX - 8 M0(, , M0(M1(), M1 (), ))
#endif
#ifdef M1
	M1() M0(: 0x10, M0(, , M0(, R8, -> .)) M1(), M0 (0x10 M0(, ADDQ BX, ADDQ),8,MOVQ M1 ()) M1()) $ -
#else
	+ M0(M0(, M0 (,,BX BX) M1(), ), M1 () R8, M1() M1 ()) MOVQ AX /* one */
#endif
#ifdef M1
	M1() M0(, , M1() ( M0 (-> 0x10,ADDQ,) )) M0 (,M1() M0 (8,,0x10),M1 ()) M1 () M1 ()
	8 M1 () M0 (+ M1 (),MOVQ,M1() ( M0(ADDQ 0x10, BX $, ) )) M0(M1 (), , . AX) M0 (M0(, 0x10 ->, 8 M1 ()),M1 (),)
	. +
	AX ADDQ M0 (,-,) : 8 // a comment
#else
	AX M0 (M0($ AX, ADDQ, ),,M1()) M1 () M0 (,,M1()) M1() /* one */
#endif
	M0 (M1() MOVQ,,) M0(M0 (M0(<< BX, R8 BX, 8) MOVQ,M1 (),ADDQ) M1(), << M0(->, M1() M1 (), M0 (+,,ADDQ ->)), +) /* one */
#endif
	M0(<<, :, ) M1 () M1()
#ifndef M0
#ifdef M1
	M1 () 0x10 M0 (M1 (),<<,M1() BX) M0 (,. <<,MOVQ) // a comment
#else
	M0(R8, M0 ($ -,M0 (,,$ +) ( BX ),), ) M0(, , ) // a comment
	M0 (M0(MOVQ M0(: 8, , << MOVQ), << M1 (), ) R8,,M1 () M1()) + // a comment
	( M1 () ) M0(( M0 (+,+ -,) ), , MOVQ M0 (M0 (AX MOVQ,,$) M0 (8,<< $,R8),M1() M1 (),M1 ())) M0 (0x10,,M0 (M1(),,ADDQ)) /* one */
#endif
	$ M0 (ADDQ,M0(, , ) M1 (),0x10)
#ifndef M0
	0x10 ->
	: // a comment
	M0 (M1 () <<,,) // a comment
#else
	M1 () M0 (M1 (),( 0x10 ) M1(),) M0(, , M0 (,0x10,) M0 (8 M0(->, ., ),,)) /* one */
	M0(8, MOVQ M1 (), M1()) M0 (M0(8, M1 () M1 (), M1 ()),M1 (),) M1 () M1() /* one */
#endif
#else
#ifdef M0
	M0(, , ) M0(8 M0(MOVQ, M0 (BX,,) M0(R8, BX, AX), M1 () -), , M0 (,,R8)) M1 () // a comment
	M1()
#else
	( M0 (M0(, , AX),M0(MOVQ, BX, :) M0 (ADDQ,$,),) ) . /* one */
	: << // a comment
#endif
	M0(MOVQ M1 (), M0($, MOVQ, ) ->, M0 (M0(, BX +, ->) ADDQ,BX,M1 ())) // a comment
#ifndef NONE
	. ( M0 (,MOVQ,M1 ()) ) AX BX // a comment
	M0 (0x10 M1(),( ( - ) ),M0(:, , M1 ()) +) M1 () -
	0x10 M1() /* one */
	M1 () M1() // a comment
#else
	AX MOVQ 8 // a comment
	M1() M1() : ( M1() ) // a comment
	-> M1 () M1 () M1 ()
#endif
#ifndef M1
	M1() // a comment
	( M0(M1 () ( BX ), M1 () MOVQ, M0 (+ BX,AX +,8 ->)) ) M1 () M1 () M1() /* one */
#endif
#endif
#endif
#ifdef M0
	M1() // a comment
	BX /* one */
#else
	->
	M1 () . M0 (,M0 (,,M1() ( -> )) M1 (),M0(M1(), . M0 (,,), ) :) // a comment
	M1() /* one */
	M1() M0 (M1 (),M0(, M0 (MOVQ R8,BX .,) MOVQ, M0 (. -,->,MOVQ)) M0(:, M1 () ADDQ, M0 (BX AX,0x10,AX :)),M0 (M0(-> BX, BX, ADDQ),$ M1(),M0 (AX,,: .) M1 ())) M0 ($,M0(M1 (), ( BX ), M1()),M0(->, M0(BX, , ) M1(), +) M0 (,,ADDQ AX)) : ( BX ) /* one */
#endif
#define M2(a) a M1()
#ifndef M1
#ifndef NONE
#ifdef M2
	M1 () // a comment
	0x10 M0(->, BX, ->) M2() M1 () // a comment
	M2() . M1() M0 (M2(M2 (.)) MOVQ,,BX M1()) M2 (( R8 ) AX)
	M1() // a comment
#else
	M0(M1(), M2 (AX), M1 () M0 (,.,)) M1() // a comment
	M0(M1 (), MOVQ, ( . ) M2()) $ 0x10 - /* one */
#endif
#ifdef M1
	<< ( BX ) - // a comment
	M0 (,,) M0(:, M1 () M2 (), M0 (,. M1 (),$) M2(M0 (R8,,<<))) M0(M1 (), , M2()) ->
	M1() M1() ADDQ /* one */
#else
	M1() // a comment
	AX ( M2() ) M2 () M1() /* one */
	8 R8 -> /* one */
	M0(M2 () M2 (), , M2(ADDQ M2 ())) // a comment
#endif
#else
	AX : R8 MOVQ /* one */
	M2 () - M0(, M0(M1 (), , M0(R8, . -, ) M2(0x10)) M2 (M1 () BX), + M2($ M1())) M1 () M1 () // a comment
	M0 (M0 (,. M2(),),M0 (,M2 (. ->),M1() M1()) 8,) R8 M0(, M0(MOVQ, <<, M0(. $, MOVQ BX, :) M1 ()), ) // a comment
#ifdef M0
	M1 () // a comment
	M0(M2 (), ( AX ), - M1()) M2 (( -> )) R8 $ /* one */
#endif
#endif
#ifdef NONE
	M0 (,,: ( MOVQ )) ( . ) 0x10 AX R8 /* one */
#ifndef M0
	8 M0(M2 (), , M1 () M0 (M0(+ 8, , .) M0(, . $, : :),- MOVQ,M0(<<, - +, MOVQ) M1())) // a comment
	-> 0x10 MOVQ /* one */
	M2(M2 () M2 (M0 (,<< <<,: .))) 0x10 0x10 M2(M1 ()) M0 (,M1() AX,M1 () M0 (( ADDQ ),,M1())) /* one */
#endif
#else
	M1() M0 (M2 (M0 (:,+ 8,ADDQ)) +,,M1 () M1()) // a comment
#ifdef M2
	<< /* one */
	M2 (-> +) ( M1() ) BX /* one */
	AX M2(( M2() )) M0(M1() -, M1 () 8, M0 (M1 () M0(+, 8 -, ),8,( BX )) M1()) M1() // a comment
#else
	M1() // a comment
	M2 (( M1() )) /* one */
	AX // a comment
#endif
	M0(: M2 (M1 ()), M1 () M1 (), M2 (( $ )) :) - M0 (,,)
#endif
#else
	ADDQ M0(M0(+ M2 (BX $), ( << ) ( -> ), ) ->, , ( M1 () ) -) M1() << - /* one */
	M1 () // a comment
	M2() : // a comment
#endif
#ifndef M2
	M0 (M0 (M2(-) ( + ),,8),M1 () M1(),M2(M0(:, AX R8, ) ( . )) ->) M1 () 8 // a comment
#ifndef M1
	M1() MOVQ +
	MOVQ M1() // a comment
	0x10 + M0 (M2 (),,( - ) M2 ()) M0(:, , $)
#else
	M0(M1() M1(), M1() M0(, $ M0(, , .), ), M2 (M1())) M2(R8) ( M0(M2(+) M2 (- 0x10), , ) ) /* one */
	M2 () M0(, , ) /* one */
	M1() /* one */
	M1 () M0(M0(, - <<, ) M1 (), M0(M2 (), , M1()), ->) :
#endif
	M2() :
	AX M2() ADDQ /* one */
#endif
	$ BX : . M1 ()
	-> M2() ADDQ /* one */
	R8 M0 (( ( -> ) ),M2 (M1 () .) ADDQ,M0(M0(-> $, ->, :) +, 0x10, M1()) -) M0(ADDQ M0 (M2 (),M1 () :,M1() ( << )), M2 (( : ) M2 (ADDQ ->)), ) -> // a comment
#define M3(a, b) a a M1() \
 M1 () AX
	0x10 ( M3(( 0x10 ) M3(MOVQ +, ), ) ) M2 (M0 (M2(BX) M2 (),,)) M0 (( MOVQ ) +,,M2() :) /* one */
#define M4(a) a a a
#define M5() R8 M1 ()
#ifdef M0
	: : // a comment
#ifndef M1
	0x10 AX - M2(M5() M3 (M5(),M2 (ADDQ <<)))
	M0 (M5 () ADDQ,M5 () M5(),M1 () R8) M3 (. M2(( AX )),. ( - )) : M1() // a comment
#else
#ifndef M5
	M0 (,<<,<< M1()) M4 (M4 (M4(:)) $) // a comment
#endif
#ifdef M2
	M0 (<< -,0x10,) M0(-> M5 (), 0x10 ( ( ADDQ ) ), .) : /* one */
#else
	M1 () /* one */
	R8 MOVQ
#endif
	M1 () /* one */
	MOVQ AX 8 M1 () ( ( BX ) )
#endif
#endif
#define M6(a) M3(AX, ) ( : ) R8
#define M7 ADDQ M3(( MOVQ ), M3 (,<< .) $) M0(, R8, ) AX
#define M8 M6(( BX ) ( -> )) : 8 ( M3 (R8 $,) )
#define M9(a, b, c) \
 $ b
#define M10 
	R8 M3 (M8 ( M2() ),) M9 (MOVQ,M5() 8,) AX M0(M9(M1 (), +, M8 ADDQ), , )
#ifndef M1
	0x10
#ifndef M10
	- M7 8 // a comment
#ifdef M4
	M3(M2() M3 (-> M10,), ) M10 8 // a comment
	M0 (,,) M1 () M5 () 0x10 ( ( 8 ) ) // a comment
	M7 M5 () /* one */
#else
	M1 () M3 (M0 (,M7 M6(),) M1 (),) // a comment
	M6 (( M5() )) // a comment
	$ M0(- M8, , ) M9 (M9 (<< M8,M8 M4 (),0x10 M4()),8 M1 (),AX 0x10) M2() /* one */
#endif
	0x10 ( M1() ) // a comment
	M1 () M8 M7 /* one */
#endif
	M8 AX M5() M2() /* one */
	M1() M8 // a comment
#else
	. M0 (0x10,M7 M7,( + )) M6(+ BX) -> M5() // a comment
#endif
#define M11() ADDQ << \
 ( M9 (,,ADDQ BX) ) M3(M5(), MOVQ R8)
	M10 M3(M7 M3(M2 (-> +) M3 (8,BX MOVQ), M7 ( AX )), ( ( -> ) )) // a comment
#define M12(a, b, c) 
#define M13 M12(M12(, 8, R8) BX, M11 () M6 (. MOVQ), ( $ ) M9($, AX, $)) M10 \
 M7
#undef M13
#define M14(a, b) << \
 a M2() b
	M4(M3(M3 (,. +) M1(), ( -> )) M7) 0x10 /* one */
	( ADDQ ) 0x10
	M1 () M2 () M8 // a comment
#define M15 M6(. ( . )) 8 M12(<< M5(), M10, )
#ifndef M8
	$ M6 () // a comment
	M3(( M10 ) ( ( - ) ), M8 <<) M9 (AX M11 (),,- M6 ()) M5() R8 /* one */
#ifndef M8
	M12(M4 (M9 (. +,,->) M5()) M11(), -> M2(), ) M14(M1(), ) M5 () M3 (AX ( M15 ),) 8
#endif
#ifndef M8
#ifndef NONE
	$ M0(- M15, , ) 8 M4(+ M7) $ /* one */
	: M5() : // a comment
	( M10 ) ( - ) M15 M11 () ( M7 ) /* one */
	M6 () ( M2 (M0 (AX,-,ADDQ) M11()) ) // a comment
#endif
	M0 (,M14 (M5 (),$ .) M3(, ),) ADDQ AX .
	M15 8 M0(, M9(-, M10 +, ( . ) AX) M12(, M9(0x10, MOVQ BX, - $) M4(R8), .), ) M12(R8, M9 (M9(, MOVQ, :),MOVQ M11 (),AX M8) M9 (,,), M15) M9(M11 (), ( M15 ), M1()) // a comment
#else
#ifndef M10
	<< . // a comment
	M10 MOVQ // a comment
#else
	M14 (M6 (M1 () M4(-> R8)) <<,) M1 () M4 () M10 -> // a comment
	MOVQ M10 - M8 /* one */
	. ( M3(M1(), M10) ) M1 () /* one */
	M3 (,M11()) M7 M12 (M10 M3 (( ADDQ ) M1(),),M14 (8,M3(0x10 8, R8 .) AX) ADDQ,) ( M10 ) << // a comment
#endif
	M10 MOVQ M12(0x10 R8, M12(, M10 M8, M0 (-,R8,) R8), M5() M0 (,M4 ($ ->),AX 8)) + M0 (M6(+ 8) BX,+ M10,( M14(MOVQ BX, AX AX) ) M6 ($ M1 ()))
#ifdef M10
	M2 (M8) $ $ AX // a comment
	MOVQ - M8 M8 ( R8 )
	. AX
	0x10 M12(, M10, ) M15 AX M15
#endif
#ifndef M12
	M1() ( ( MOVQ ) ) $ M2 (- M14(, M2(: MOVQ) :)) /* one */
	. M2(M7 M12(( $ ), M0(- ->, :, : AX), )) /* one */
	M9 (,,M9(M5 () M6(AX), M8 M7, AX :) -)
#endif
#endif
#else
	M14 (BX,M7) M4 () + M0(M8 M11 (), $ BX, ) M7
	( M4(+ 0x10) ) - ADDQ << $
	M9 (M9(AX M7, ( ADDQ ), ) M1 (),8 M14 (M3(ADDQ R8, ),( : ) M9(, :, 0x10 :)),-) M5 () M4 (M15 -) // a comment
#endif
#define M16(a, b, c) \
 b
	$ M4 (M0($ ->, $, )) M8 AX /* one */
#undef M16
	M0(M6 (M6 (. +) M7) ( 0x10 ), M4 (AX), ) ( M12($, , M15 M12(AX -, , )) ) M10 /* one */
#ifdef M3
	M7 M10 8
#endif
#define M17 M12($, , ( - )) ADDQ M11 ()
#undef M17
#ifdef M7
#ifndef M5
	<< M9(, , ) M11 () M9(, , ) M14(M10 AX, M7 .) // a comment
	M5() /* one */
	+ M0 (M3(M9 (AX BX,R8 $,), ),,M4(( ADDQ ) M2 (ADDQ MOVQ))) /* one */
	M9(., , ) M2 (M1() +) << M9(M11() ( . ), M0 (M0($ MOVQ, 8 <<, . +) M1(),M5 () AX,) M5 (), ) M0(M5 (), , ) // a comment
#else
#ifdef M15
	$ M8 // a comment
	M11 () M10 /* one */
	M11() M6 (M9 (. M7,,M15)) // a comment
#endif
#endif
	MOVQ M7 << M2 (M7 M12 (,,M5 () :)) AX // a comment
	M6(R8 M14 (M15 ADDQ,)) M3(, M1() M3(0x10 M8, $)) /* one */
	8 M4 (M15) ADDQ R8 M8 // a comment
#else
#ifndef M6
	: M10 -
#ifdef M12
	<< // a comment
	( M4 (M7) ) - /* one */
	( -> ) ( M6(M11()) ) M6() . /* one */
#else
	M8 M8 M12(M6() 8, M0 (+,,M9(-, , - AX) ( R8 )), ) /* one */
	M4 (( ( -> ) )) M4() - M2(M5() M15) /* one */
#endif
#endif
#endif
#define M18(a) M6 (R8 ( R8 )) M6(M0 (,:,a))
	M5() M3 (0x10,) ( M1() ) // a comment
	( MOVQ ) 0x10
#ifdef M3
	<< M14 (:,) M6 () M10 M14 (M12 (R8 ( AX ),( -> ),) M6 (M18(BX AX)),M2 () M4(M7)) /* one */
#endif
#undef M18
	ADDQ ( M3(, ) )
#define M19() 8 M1() << -> +
#ifdef M19
#ifndef M9
	M10 ADDQ M8 M14(M10, ) M11() // a comment
	M11() AX M8 /* one */
	( M19 () )
	AX AX // a comment
#else
	M8 M8 // a comment
#endif
	M9 (( M6 (BX $) ) 0x10,,) /* one */
#ifdef M19
	M7 $ M7 ( MOVQ ) M1 () // a comment
	M5() R8 . // a comment
	: M12(R8 M10, , M5 () M5 ()) // a comment
	M3 (M19 () :,M10 8) + R8 // a comment
#endif
#else
	M7 ADDQ . M6(( ( . ) ) M19 ()) M9(BX, , ) /* one */
	M11 () M1 () : M14 (M9(( 0x10 ) M11(), 0x10, ),( M0 (,0x10,) ))
#endif
	M19() ADDQ . 8 // a comment
#define M20(a, b, c) a
#define M21(a, b) b a
	M20 (M20 (,,8),M12(, M3(, ->), ) $,) /* one */
	R8 M0(M15, :, ( M21 (<<,) ) M10) // a comment
#ifdef M11
	8
	0x10 M3(M10 M6 (M6 (-> R8)), ) . // a comment
#endif
#define M22(a) 
	: 0x10 /* one */
#define M23 M15
	M1() M14(( M22 () ), . <<) AX ( 0x10 )
#define M24(a, b) M1() 0x10 b

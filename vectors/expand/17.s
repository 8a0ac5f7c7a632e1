#ifndef NONE
#ifdef NONE
#ifndef NONE
	( ( ( BX ) ) ) ( + ) : ( ( : ) ) /* one */
	( ( : ) ) AX 8
	( ( ( $ ) ) ) ( ( ( 8 ) ) ) ( ( + ) ) /* one */
#endif
#else
	+ ( ( $ ) ) ( ( - ) ) $ ( $ )
#endif
#ifndef NONE
	( 0x10 ) ( ( 8 ) ) ( - ) // a comment
#endif
#ifdef NONE
	( $ ) MOVQ ( ( R8 ) ) : 0x10
#else
	( ( ( << ) ) ) -
#endif
#else
#ifndef NONE
	( $ ) ( - )
#else
#ifdef NONE
	( -> ) ( ( ( ADDQ ) ) ) ( ( ( -> ) ) ) /* one */
	( AX ) ( ( ( MOVQ ) ) ) 0x10 ( ( ( : ) ) )
#endif
#ifndef NONE
	( BX )
	-> /* one */
#else
	( R8 ) ( ( ( 8 ) ) ) ( ( $ ) ) ( -> ) ( R8 ) /* one */
#endif
#ifndef NONE
	. ( ( ( R8 ) ) ) /* one */
	( ( ( - ) ) ) ( ( ( 8 ) ) ) /* one */
#endif
	( ( 0x10 ) ) R8 8 ( ( AX ) ) 8
#endif
	-> ( 0x10 ) ( ( ( 0x10 ) ) ) ( ( ( ADDQ ) ) ) /* one */
	( $ ) ( ( ( $ ) ) ) +
	-> // a comment
#endif
	( ( . ) ) 8 ( ( ( BX ) ) ) /* one */
	-
#define M0(a, b, c) ( ( b ) ) ( AX ) BX b <<
#define M1(a, b, c) c c M0(M0 (a ->,b,.) $, ., )
#define M2(a, b, c) a M1 (a,a,M0 (:,:,->)) \
 c
	M2 (BX,M1 (M1(BX, , ADDQ ->),M2(, , ADDQ 0x10),) M2(M2(, , ), R8, ( 8 )),) /* one */
#define M3() \
 << M0(M2 (ADDQ,. ->,), M0 (. 8,,) M0 (8,BX <<,->), :) M0(M0(0x10 ., BX, ) M1 (8 MOVQ,-> :,$ $), -> M2(BX -, ADDQ, ), ) M1 (M0(, <<, BX) -,M1(, R8, 0x10 AX),M0 (-,R8,0x10 R8))
#define M4 M2(M1 (,- .,), M3() M0 (,,), ->) M2(, AX, $ M3 ()) << M1 (( R8 ) M2(-> <<, $, ),ADDQ,( ADDQ )) M3 ()
	- M3() M4 BX // a comment
	M1 (M2(M3() M2 (<<,0x10,MOVQ), , $),0x10 M4,( + ) M2 (M1(, 8, ) $,-> -,R8 R8)) /* one */
#define M5() MOVQ << M1 (M2 (,$ R8,R8 BX) M0 (<<,- :,8 BX),M1(:, AX, ),) M2(ADDQ, 0x10, : M2(+, , BX ->)) M1 (,- ( << ),)
	$ M5() M0(, M2(( $ ) ( << ), , ) R8, )
#define M6(a, b) a b
	M4 M5 () M4 M4 // a comment
#define M7 M6(BX, )
	M0 (,,M4 M3()) ( ( << ) ) M1($, , ) 8 M2(MOVQ, M6(M5() MOVQ, M2 (,AX AX,MOVQ ->)) M0(, M2(: ., MOVQ -, ) M6 (,: BX), ), M3 () M7)
#define M8(a) \
 a ( a ) a
	M2(, , M0(M4, , M7 M2 (BX ->,,+ $))) M7 MOVQ M0(, ( M4 ), )
	+ M4 // a comment
#define M9() : M0(8, ADDQ M8(), M2(ADDQ, , AX) M3 ())
	0x10 // a comment
	8 AX R8 /* one */
#undef M9
	M8 (ADDQ M6(M3 (), 8)) ( 8 ) // a comment
#define M10() M7
#define M11(a, b, c) . M4
	MOVQ M6(., ) M6(, ) 8
	M2 (M5 (),,) // a comment
#ifndef M10
	M6(, M5() ( M1 (,-,ADDQ) )) ADDQ /* one */
#ifndef M5
#ifndef M6
	( ( M1(8 R8, MOVQ, + MOVQ) ) ) M0 (M11(, M5 () ->, ( BX )),M2(M8(), . R8, BX),M1 (,M3(),M10() ->)) MOVQ M0(: 8, , :) AX // a comment
	( . ) M6(M11(, ( << ), ), M6(, $ M6 (-> MOVQ,)) M3())
	M7
	8 // a comment
#endif
	M0(, ( ADDQ ) M1 (M6(->, ),,:), + ( R8 )) M7 .
#ifdef NONE
	AX M5() ( M11(M0(., , ) 8, , M10 () :) ) ( M2(<<, , ( - )) )
	M10 () M6(: M8 (), ( M6 (. <<,-) )) ( M7 ) ( BX )
	M6(8, M8(M2(BX, R8 <<, :))) AX
	-> M10 () M0(M5 (), R8 R8, ( : ) ( M4 )) M6 (M6(, ) .,M1 (,.,M5 () M4))
#endif
#ifndef M1
	M7 BX /* one */
#endif
#else
	-> M8(M5() $) /* one */
#endif
	( 0x10 ) M10() // a comment
#endif
#ifdef M7
	M1(, ( 8 ), ) + /* one */
#endif
#define M12 \
 . M5()
#define M13() \
 M6 (M12,M12 M10 ()) ADDQ ( M12 ) M12 ( + )
	M10 () M1(M1 (M7 M12,M7 M5(),M12 M10 ()) -, , M1 (( - ) ADDQ,,( BX ))) ( ADDQ ) M11 (( M8(MOVQ) ),M6 (8,) M12,M2(, << M13(), ) M3 ()) // a comment
	M7 M4 M12 ( M10() )
	:
	.
#ifdef M3
#ifdef M0
	M2(. M3 (), M13() 0x10, M1 (BX,,)) M7 // a comment
#endif
#endif
	<< -> M5 ()
#ifndef NONE
	0x10 M6 (,) M2(( M12 ) M2 (M13 (),M1(ADDQ MOVQ, , R8 8) R8,), M4 +, ( M8($) ) BX) /* one */
#ifndef M12
	R8 /* one */
#ifdef M3
	M5() ( R8 ) R8 M4 /* one */
	M12 ( M6 (M4 MOVQ,) ) /* one */
#endif
	M7 /* one */
#else
#ifdef M1
	M10 () M7 ( AX ) M8() M6 (,) /* one */
#endif
#endif
#ifdef M7
#ifdef M0
	M6 (M13(),)
	M7 M1(->, M5 (), ) -> /* one */
#endif
#ifdef M5
	ADDQ M2(, MOVQ, ) // a comment
#endif
#ifndef M5
	M4 M3() -> // a comment
#else
	AX /* one */
	M5 () M1 (,,:) M4 M1 (M10 () ( MOVQ ),M6 (: M11(., , .),M0(, , ADDQ <<) M1(. MOVQ, AX, .)) ( ( MOVQ ) ),) /* one */
	<< M12 /* one */
#endif
	M10 () ( BX ) ADDQ +
#else
	M1(M8(( 0x10 )) M5 (), BX AX, ADDQ) - M4 M12 /* one */
#ifndef M8
	M11 (M0(, , ),,) M8 (( M1(R8 R8, $ MOVQ, $ ->) ) M10()) // a comment
#else
	M4 M6 (M7,M8 (.)) /* one */
	M1 (,( ( AX ) ),M13() M2 (M1 (,R8 +,- 8) ( -> ),M13(),M13())) 0x10 M8(:) ( R8 ) ( M13() ) /* one */
	- M1 (,,M11(8 ( << ), , BX .)) : M3() AX /* one */
	M13() M13 () M13() M0 (,M12,8 M8(M0(-, , + BX) $)) // a comment
#endif
	M2 (M4 $,0x10,) -> M3() /* one */
	M13() M6(M12 ( M12 ), ) // a comment
#endif
	M10 () 0x10 -> M12
#else
#ifdef M0
#ifndef M10
	M1 (8,M8 (M4),AX) 0x10 M10() M2 (,M12,M5())
	+ M2 (M2(M8 (), AX, 0x10 M8(8)) $,,( M6(, ) ) AX) // a comment
	<< . M12
	- M8(M10 ()) M5 () // a comment
#else
	0x10 -> M8() /* one */
	M0(BX <<, , <<) M1 (M8 () -,M11 (+ M11(, :, BX -),,$) <<,) M10 () M10 () M13 ()
#endif
	ADDQ M12 // a comment
#ifndef M0
	( ( -> ) )
	: M11(AX M0 (,.,M5()), M12, M3 ()) ( M12 )
	M2 (,( M2 (R8,AX,$) ) 0x10,8 M7) M5() 0x10 M4
#else
	M10 ()
	( ( M11(, -> BX, R8 .) ) ) BX -
#endif
	M2 (M3() M4,,) M12 M5() M3 () M3() // a comment
#else
	BX -
#ifndef M3
	M8(M12) M5 ()
	-> M7 M11(M4 M4, ADDQ M12, M12 .) M1(, , M13() M6 (( . ),M8 () M12))
	M0(, +, ) // a comment
#endif
#ifdef NONE
	( M1 (M4 M5 (),BX M7,M4 M11 (,,AX MOVQ)) ) M6(, ( M6(., ) )) - // a comment
	M10() // a comment
#else
	MOVQ . /* one */
	-> ( 8 ) 0x10 . +
	M8 (( MOVQ )) ( -> ) : M0(, 8 ( - ), ) M10() // a comment
#endif
	M2($, , M2(M3(), , -> M1 (MOVQ,,- :)) ( M12 )) - M6 (( M1(, -, 0x10 MOVQ) ) :,) AX M11(M7 M4, M1 (,M4,), M7) // a comment
#endif
	M2 (M2 (ADDQ M3(),<<,M13 ()) BX,,M10 () M2(, , ( + ) M7)) MOVQ M1 (M5(),M1 (MOVQ,,M2 ($ 0x10,ADDQ $,. +)),<< M0(M10 (), , )) /* one */
	M13 () M10() /* one */
#endif
#define M14() ADDQ . ->
	M2($ ADDQ, <<, M7 +) : M5 () /* one */
#define M15 
#define M16(a) 
	AX M0(M1(, ADDQ, +) M12, << M7, M15 M1 (M10 () BX,M12,M3 ())) ->
	M7 M7 M14() M15
	-> -
#define M17(a, b, c) c BX b ->
	8 -> M8(M10 () M8 ()) M3 () // a comment
#define M18 . MOVQ
#define M19() 
	. M16 () M3 () /* one */
	M19() M19 () ( - ) ADDQ /* one */
#ifdef M17
#ifdef M19
#ifdef M15
	M17(M3() ADDQ, , M15) .
	M6(M1(M4 M15, M14 () M16 (), M15), ->)
#endif
#ifdef M12
	-> M12 M0(, M10 () ADDQ, +) -
	( M7 ) /* one */
#endif
#ifndef M12
	M14 () ( M19() ) // a comment
#else
	: MOVQ M7 8 // a comment
	+ M11 (,M11 (M13(),,$ M3 ()) <<,8 M12) /* one */
	BX M7 0x10 /* one */
	M13 () M12 <<
#endif
	M15 M17 (0x10,,M14 () +) // a comment
#else
	M5 () M15 $ M4 /* one */
#ifdef M3
	BX ADDQ M2(, , ) M14 () // a comment
#endif
#endif
#ifdef M14
	M15 -> -> << // a comment
#else
	BX /* one */
#ifndef M12
	M1 (,,M8 () M15) ADDQ . :
	M1(0x10, M1(ADDQ, M6(8, MOVQ) M11(, , - ADDQ), <<) MOVQ, + M10 ()) 0x10 M7
	: - + M16(M15 M8 (M19 ())) M19 ()
#else
	M4 /* one */
#endif
	M15 0x10 : M2 (( M3() ) -,M6 (,M16(. ADDQ)),M18 ( M7 ))
#endif
#else
	8
#endif
#ifndef M6
	8 M4 BX // a comment
	( M5() ) ( M15 ) M13 () // a comment
#ifdef M8
#ifndef M10
	0x10 ( M18 ) M8() M18 // a comment
#else
	( M18 ) M12 /* one */
#endif
#else
	M6(( 8 ), M5() R8) /* one */
#endif
	0x10
#else
#ifndef M14
#ifdef M4
	-> 8 M17 ($ M1(, M18, BX),$ M18,M14()) :
	M4
	M7 /* one */
#else
	M6(M13(), ) AX BX 0x10
	M10 () M0(, ADDQ, ) ( BX ) ( M6(, ) ) 0x10 // a comment
#endif
	M11(, M3(), M15) M4
#else
#ifdef M6
	M8(+ M17 (( 0x10 ),M1 (0x10 +,,) M16 (0x10),))
#endif
#endif
#ifndef M10
	M8() ( 0x10 ) /* one */
	ADDQ M8 () ( -> ) +
	AX ( BX )
#ifndef M16
	MOVQ AX /* one */
#endif
#else
#ifdef M6
	M17(0x10 M6 (M0(AX ADDQ, ., :),), ( M6(, +) ) -, M17(AX, , 0x10)) M6 (,0x10 M8 (ADDQ)) // a comment
	: ADDQ M3 () M8 () /* one */
#else
	<< ( M16 () ) /* one */
#endif
#ifdef NONE
	8 M18
#endif
	M3() R8 M11 (( ( . ) ) MOVQ,M6 (,M14() ( MOVQ )) M3(),M17 (M15 ( - ),M13() M1 ($,$,BX AX),M16() M16 ()) M3 ()) /* one */
#endif
	AX M7
	8 MOVQ M8(ADDQ M13())
#endif
#define M20(a, b, c) b ( M1 (AX AX,,0x10) )
	M19() M4 M17(, ( AX ) -, ) // a comment
#define M21() M10 () AX AX
#ifdef M3
	M2(: M5(), << <<, ADDQ) 8 // a comment
	M2 (M12 M7,,M17 (AX,,M21 () M19()) 0x10) ( M8() ) M19 () R8 : /* one */
	AX M12 +
	-> M6 (( M6 (<<,8 MOVQ) ) -,M11(, M1(+ AX, - BX, +) M7, MOVQ)) M20 (,,) ( M15 ) // a comment
#else
#ifdef M7
	M12 AX M13 () M12 ( M4 ) // a comment
#ifndef M1
	BX M5 ()
	M12 M20(M5 (), << M20(AX M4, , ( . )), ) M8() M13 () M7
#endif
#endif
#ifdef M16
#ifndef M20
	M14 () 0x10
#endif
#ifndef M12
	0x10 M21 () M14() + M17 (,M16(: M5()),M1 (,M18,)) // a comment
	M4
	-> ( M17 (M14 () :,M10() R8,8 M11 (ADDQ MOVQ,ADDQ,->)) ) // a comment
#else
	M19() M13() ( M4 ) M20 (( ( 8 ) ),8,M21 () ( M6(, <<) )) << // a comment
	: M4 // a comment
#endif
	M11 (AX ( M1(, . AX, R8) ),,) M20 (M14 (),MOVQ,-> M12) BX + // a comment
#ifndef M12
	. $ $ /* one */
#endif
#endif
	0x10
	BX M8() 0x10 M21()
#endif
#define M22(a, b) \
 :

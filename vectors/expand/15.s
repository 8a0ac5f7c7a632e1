	AX BX ( : ) ( $ ) ( ( R8 ) )
#define M0() BX
	+ M0 () M0 ()
#define M1(a, b) : M0()
#define M2 M0() \
 M0 () M0() +
#define M3(a, b) b M2
	-> -> M1 (,M3(, <<) M3(, M3 (0x10 MOVQ,-))) M2 // a comment
	M3(M2, M0 () 8) /* one */
	M0() M2 M1 (( M0 () ) $,) ( M0 () ) 8 // a comment
#define M4 M2 M3(8 -, )
	- M4 // a comment
	M4 ( ( << ) ) M1($ M4, 8 M2) M1 (,<<) // a comment
#define M5 M0 () + M1(M0(), ) $ AX
#undef M5
#undef M4
#undef M3
#ifdef NONE
#ifdef NONE
	M2 - // a comment
#endif
	- 8 M1(+, ) 0x10 // a comment
	M0() M2 M2 M1(M1 (M1(<<, AX R8),M0() M0 ()) M1(, M1(: 8, . BX) M1 ($,)), - ADDQ) M1 (M1 (.,),AX) // a comment
	- -> $ ( MOVQ ) M0()
#else
#ifndef M2
#ifdef NONE
	( M0 () ) M0() ( M1 (( $ ) M2,ADDQ) ) M2 + /* one */
	M0() /* one */
	0x10 M0 () M1 (,M2 8) 0x10 /* one */
	+
#else
	AX // a comment
	M1(, M0 ()) /* one */
	-
#endif
#ifdef M1
	M0() R8 M0 ()
#else
	( . ) M1(M1 (M2 M2,), M1 (M2 M0(),M2)) $ M0() BX
#endif
	M1(, M1 (,))
#else
#ifdef M0
	0x10
	M2 << // a comment
#else
	M0() /* one */
#endif
#ifndef M2
	M0 () M1(: M2, ) BX M1(BX M2, M0 ()) MOVQ // a comment
	BX -> MOVQ /* one */
	<< ->
#else
	M1 (: M2,) - M2
	M1 (,M1(, M2 <<) ( -> )) M0 ()
	( M2 )
#endif
#ifndef M1
	MOVQ M0 () // a comment
#else
	M2 BX M0 () : 8 /* one */
	M2 -
	0x10 // a comment
#endif
#ifndef NONE
	M1 (M1 (M0 () M1(0x10, : ->),( R8 )) M1 (M2,),M0() M2) 0x10 : M2
	. M0() -> M2 // a comment
#endif
#endif
	M0 () M1(M2 AX, M0()) . /* one */
	M2 + M0 () M0 () M1 (MOVQ M2,) /* one */
	M1 (( -> ) R8,ADDQ M1 (M2 M2,)) MOVQ M0 () : /* one */
#endif
	M0 () 8 /* one */
#ifdef M1
#ifndef NONE
	R8 M1 (,8) M2 M0 () M1 (-> M0(),) // a comment
#else
	0x10 M0() M1 (,) ( M1(, ( BX ) BX) ) // a comment
#endif
	M0 () . // a comment
#else
	( M0() ) MOVQ /* one */
#ifdef M2
#ifdef M2
	+ M0() M0() M2 ( M0() ) /* one */
	. -> /* one */
	M1 (M0 () ->,0x10 ( : )) M1 (M1(, M1 (<<,)),M1(->, M2 M2) MOVQ) // a comment
	( M2 ) M0() << // a comment
#endif
#else
	M2 M0() M2
	ADDQ R8 M0 () M2 M1(, M2)
	M2 /* one */
#endif
#endif
#define M6(a, b) ( M0() ) MOVQ
#define M7(a, b, c) 
#ifdef M1
	M0()
	AX ( ( M6 (. <<,MOVQ AX) ) ) M1 (( ( AX ) ) ( ( $ ) ),ADDQ)
#ifdef M6
#ifdef M7
	-> /* one */
#endif
#ifdef M2
	->
	M1(, ) M6 ($,) /* one */
	M1(M1(M6(, ->) M0(), M0 () M0()) $, ) M2 ( ( + ) )
#else
	M6 (,M6(:, M6 (ADDQ +,) MOVQ) +) MOVQ ->
#endif
#endif
#endif
#ifndef M1
	( M6 (,) ) + ( + ) /* one */
#ifdef M2
#ifdef M7
	. M2 M7 (BX,M7(, M2 BX, M7(AX, R8 0x10, BX $)),M0() ( M1(R8, ) )) .
	M7(, BX R8, ) M6 (,) M0() .
	M2 M6 (M6 (,M2),) M2 M0() -> /* one */
#else
	( ( M1 (,MOVQ ADDQ) ) ) M1 (M0(),) << 8 // a comment
	R8 M6(M0(), ADDQ M1(M0(), MOVQ)) M2 M2 /* one */
#endif
	M2 M2 M0() M1 (M6(. MOVQ, M7($ :, , .) M0()),)
#endif
#ifdef M6
	M1 (,) /* one */
#ifdef M7
	<< M0 () M6($ M0(), MOVQ) /* one */
	MOVQ M0() AX M2 ( : ) /* one */
	-> ( M1 (M0(),M1 (,8)) ) << M1 (( M0() ),-) // a comment
	- M6 (ADDQ BX,) AX ( M1 (-,M6(0x10, ADDQ .) M6(, .)) ) ( R8 ) // a comment
#else
	M1(, M0 () M6(M6(8 ., ), ( BX ) ADDQ)) M0() /* one */
	M6(, M0() .) M0 () M7(, ( M1 (-> 8,) ), M7(M1(+ R8, ) $, M0 (), ( << )) -) M2
#endif
#endif
	$ ( $ ) M0 () R8 M0() // a comment
#else
	M6 (M6 (M6(AX, ),M2 BX),( M6(R8, . 8) ) ( M7 (,,) ))
	MOVQ ( M1(, ) ) << M2 ADDQ // a comment
#endif
	M6(M0 (), ( M1(, ) ) +) M1(M7 (M0() +,M1 (+,),( + )), M1 (,)) BX /* one */
	BX +
#ifdef M0
	ADDQ M0() -> /* one */
	M2 M6 (,M2 M7(M6 (BX AX,ADDQ) M2, M7 (,ADDQ,) M1 (BX .,AX), M2)) M2 .
	( ( - ) ) M7(. M2, , ) + M1(BX, ) /* one */
#else
	M2 M6(M2, . .) /* one */
	M1 (,$)
	M6 (,( M6(0x10 $, ) )) ( M0() ) // a comment
#endif
	M0() M0 ()
#ifdef M1
	M2 R8
#ifdef M1
	M7(M7 ($ M0(),,) ADDQ, M7 (BX,M7 (:,.,0x10) M1(., << 8),M1 (.,ADDQ)), - M7 (M1(R8, : ->) M1(., R8),( AX ),)) M7(M1(, M7 (,8 R8,R8 R8) M1(AX, $)), , ) . M2 M1 (M1 (,M6 (<< R8,. -) M0()) M1 (M2,( 0x10 ) M1(8 <<, R8 $)),) // a comment
#ifdef M7
	M6 (M7(, 0x10 $, ),( ( R8 ) ) M2) M1(MOVQ, MOVQ ->) ( ( BX ) ) M7 (M1 (M6 (: :,ADDQ BX) :,M1(MOVQ, 8 AX) ADDQ),$ M0(),M0() ADDQ) AX // a comment
	M1(M7(R8, , : M2) MOVQ, ) - // a comment
	M1(M2 M2, R8) BX ADDQ /* one */
	M1 (,M6(M7(:, MOVQ R8, R8 AX) M1 (,), )) : M1(, AX M7(M1(MOVQ, ), M6(AX, ) M6 (MOVQ,), M1 (,))) R8 // a comment
#else
	- M1 (M2 M1 (-> M0(),M6 (,)),M1 (( - ) M1(, ),M6(<<, - 0x10) M2) -) M2 $ /* one */
	MOVQ M1(( M1(+ <<, .) ) M0 (), M2 MOVQ) M6(M2 M6(M6 (-> +,) M1 (0x10 ADDQ,), ), BX) M2
	<< M1 (ADDQ,M1(M1(, :), ) M1(M2 M0(), ))
	AX
#endif
	M7 (,,) M1 (: <<,)
	M6 (M7 (,,),M2) << // a comment
#endif
#ifdef M6
#ifdef NONE
	+ M1(BX, M1 (,) +) : // a comment
#else
	M7(, , ) // a comment
	( M6 (,0x10 <<) ) M6 (8 M2,- 8) // a comment
#endif
#ifndef M0
	M0() M1 (,) ( ADDQ ) M0() /* one */
#else
	8 : // a comment
	M0 () + R8 M7(, , R8 ( M2 )) M6(M2 AX, 8)
#endif
#else
#ifdef M6
	M7(M2 M7(, 0x10 ( BX ), M0 () M7 (ADDQ,AX,+ MOVQ)), M1(M2, MOVQ ( : )), ) M6(, M1(, )) M6 (M2,M7 (,BX M0 (),M0())) /* one */
	( << ) - M6 (ADDQ M0 (),M1(MOVQ, M0 ())) ( M7 (,,) ) M2 // a comment
	( M7(, M6(, 0x10 $) M1(, ), ) ) M6(, ) M1 (M2,M6 (( << ) ( -> ),) M7 (0x10 M2,,)) M2 // a comment
#endif
	MOVQ M2 << ( MOVQ ) // a comment
#ifndef M1
	MOVQ M0 () R8 // a comment
	8 // a comment
	$ -> M0 () $ M1 (M1 (M2,),)
#else
	M6 (( AX ),) << /* one */
#endif
#ifdef M7
	M0() // a comment
	M2 M2 M1(-, ) // a comment
#else
	R8 M1 ($ M1(M1 (,) M6 (,0x10 <<), M2),AX .) - // a comment
	: M6 (+,:) M2 /* one */
#endif
#endif
	M1 (,<< M7 (,M2 ->,)) . M6 (M0(),M1 (,+ R8)) ( -> )
#else
#ifdef M6
	M1(, ) M0 () ADDQ // a comment
#else
	8 M2 ( ADDQ ) AX /* one */
	+ M6(M7(- :, - M0(), M1(AX, )) M6 (0x10,M0 ()), ) // a comment
#ifdef M1
	M1 (,R8) M0() M6 (,8) M6(M1(+ ADDQ, ) M0 (), ) /* one */
	M0() - ( M2 ) M7 (,( M6(:, ) ),M0 () ( M0() )) /* one */
	( M1 (M6(->, $),) ) M2 M6 (M2 M6(M0() M6 (<< .,AX 0x10), $ +),M6(( << ), M1(. -, 8)) ( MOVQ )) // a comment
	BX // a comment
#endif
#endif
#endif
#define M8(a) M1 (,a) a M7 (AX <<,,)
#define M9 R8 M2 R8 :
#define M10(a, b, c) a
#define M11 M0 () M6 (( : ) M8(BX),M7(MOVQ MOVQ, R8 AX, $ :)) M0 () M8 () M8 (->)
	M11 M9 M7(M6(M10 (BX AX,ADDQ -,R8 8) M7(-, - ADDQ, -), M10 (0x10 AX,,)), M11, M10(M7(8 ADDQ, MOVQ BX, MOVQ .) M10 ($ ->,,), M7 (<< <<,: -,8 -), M8() M0()) ( 8 ))
#define M12() + R8 ( M11 ) : M7 (,,)
	M1(M0() AX, ) M1(M9, M6(( BX ), M2 8) M12()) // a comment
	0x10 M9 M11 // a comment
#define M13 M7(BX M8(R8 R8), -, ADDQ)
#define M14(a, b) \
 M6(R8 M7(a, b a, 0x10), a)
#define M15 ( M6(, R8) ) MOVQ AX
#define M16() M14(, ) . \
 M2 ( ( ADDQ ) )
#define M17 
#ifdef M13
#ifndef M17
	M9 : ( M11 ) // a comment
#else
#ifdef M0
	M2
	0x10 /* one */
#endif
#ifndef M12
	BX M12 () M13 M0 () // a comment
	M12 () ADDQ M13 0x10 /* one */
#else
	<< M6(-, M12 ()) M13
	M0() M14(M9 M7(M12 () ADDQ, , M0 ()), M11) : M0 () M17 // a comment
#endif
#ifdef M14
	M16 ()
	BX M14 (,ADDQ) ( MOVQ ) ADDQ /* one */
#else
	( M15 ) M12 () M2 M16 () // a comment
#endif
#endif
	M2 /* one */
	AX AX M13 /* one */
	AX M11
#else
	M15 M11 - M9 ( M11 ) // a comment
#ifdef M14
	M6 (R8 M10 (M9,M11,),AX) M7(M17, M11 M6(( MOVQ ) M14(, AX), AX :), ) /* one */
#ifdef M1
	-> M17 M0 () /* one */
	R8 : M0 () // a comment
	M10 (,M14(, ( R8 )) $,) ( - ) M17 // a comment
	<< M9
#else
	M0() M2 . M6 ($,) M2
	AX M8 (MOVQ) M7 (,M1 (,M12 ()) M11,M6(M6 (,) M8 (ADDQ ->), M11 M2)) M0 () M13 /* one */
	. . M15 M17
	: M17
#endif
#else
#ifndef M14
	-> M6(BX, M17 $) // a comment
#else
	M8 () M9 M14 (M9,) ( 0x10 ) M12() // a comment
	M14 (,) // a comment
	( M6(( 0x10 ) M11, ) ) M11 ( -> ) // a comment
	+ M15
#endif
	M17 M15 M13 M17 /* one */
#ifndef M13
	BX // a comment
#else
	( M12 () ) ADDQ M9 M8 (M15 M17) // a comment
	8 + // a comment
	M17
	M14(, M10 (,M10(ADDQ, ., 0x10 .) M14(., << AX),M8 ()) M9) M11 // a comment
#endif
#endif
#endif
	. ( AX ) M11 // a comment
#define M18(a) M9
#ifndef M0
#ifndef M11
	AX M10(, M1 (M10(, AX, R8) M13,), M7 (,,)) -> . /* one */
#ifndef M6
	+ M12() M12() M8 () // a comment
	M16 () ( M12() ) ( $ ) M16() /* one */
#else
	M12 () M16 () M12()
	AX R8
	M13 M12 () . M14($, ) MOVQ
	$ /* one */
#endif
#ifndef M7
	BX ( + ) M10(, , M6(MOVQ, M14(AX, . MOVQ) M15)) R8 // a comment
#else
	( + ) M13 M15 // a comment
#endif
#ifdef M1
	: M16() /* one */
	<< // a comment
#else
	M11 M2 M15 M16 () /* one */
#endif
#endif
	M7 (M14(, M11 M8()) AX,M13,) ( . ) ( M16() ) M6 (-> ( - ),<< M7 (0x10 M8 (. .),,( . ))) M8 (M13 M2) // a comment
#else
#ifdef M16
	( $ )
#endif
	M0() // a comment
	<< // a comment
#endif
	M6(M10 (M10 (,+,<<) :,M9 MOVQ,) -, )
	- M9 ->
	+ M17 <<
	<< M0() M14(, ) -> R8 // a comment
#define M19() 0x10
	. M7 (,,M9) M15
	( M11 ) M9 MOVQ AX ADDQ /* one */
#define M20 BX M17 M7 (M1(., ),,M19())
#ifndef NONE
	ADDQ R8 M1 (,M2 M8 ()) /* one */
	M16() M12 () ( ( 0x10 ) ) M6(BX R8, M12 ()) M18(( M9 ) :) // a comment
	M1(AX, 0x10 M7(M17 M7(- BX, BX :, ), M10(, 8, 8) M14(, R8 R8), M6(- -, ) $)) M12 () M13 M9 M20
	M7 (->,M17,M12()) ( ADDQ ) M0 () /* one */
#endif
	( ( << ) ) M17
#define M21 M6 (M18 (. -),) M18 (M20 M1(., 8 0x10))
	M0 () : BX M10(+, , ADDQ ( M15 )) ( ( M12 () ) ) // a comment
#define M22(a, b) M20 b : <<
	M13 << M10 (,M10 (( AX ),M10(MOVQ, - ADDQ, :),) M17,) ( M19 () ) /* one */
#define M23 M21 + MOVQ 0x10

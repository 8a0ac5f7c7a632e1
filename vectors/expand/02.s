	( << )
	( ( ( 8 ) ) ) ( . ) $ // a comment
#ifndef NONE
	8 ( AX ) ( ( ( AX ) ) ) ( ( ( 0x10 ) ) ) // a comment
#endif
	( 0x10 ) ( << ) : ( ( + ) ) ( : ) // a comment
	( << ) ( $ ) . // a comment
#define M0(a, b) 0x10 ( << )
#ifndef NONE
	-> << M0 (M0(( ADDQ ), M0 (,) M0 (,BX)) MOVQ,) M0 (,) M0 (( BX ),) // a comment
#ifndef M0
	( ( M0(<<, ) ) ) M0(, ) AX M0(M0(M0(+ :, ), ), ) // a comment
#ifdef M0
	M0 (M0(R8, AX M0 (,)) M0(, ),) M0 (( M0(8 -, 8 -) ) M0(M0(<< $, :), ),-> M0(M0(MOVQ $, ADDQ) M0(<< ->, ADDQ), )) ( << ) M0 (,R8 M0(, M0(-> 0x10, BX -))) /* one */
	- M0 (,M0 (,) ->) M0(M0 (M0 (,),M0 (AX 0x10,. ->)), M0 (M0 (0x10,<<) M0 ($,: .),)) 8 :
#endif
#ifdef NONE
	<< ( M0 (,->) ) M0 (AX,) M0(( M0 (,0x10) ) ADDQ, M0(M0 (,), M0 (->,AX 0x10)) M0 (,M0(. 0x10, << R8)))
#endif
#endif
#endif
#define M1 ( M0(R8 0x10, R8 ADDQ) ) 8 BX M0 (M0(R8, <<),M0 (BX,:) M0(, ))
	M1 -> << /* one */
	M0(M1, ) 0x10 M0(AX, ) /* one */
#define M2 8 M1 M1 \
 M1 ( M1 )
#define M3 M0(M0 (<<,), )
	M0(M2, ) ( M3 )
#define M4 0x10 ( M0(: 8, 8 0x10) ) \
 M1
#ifdef M1
#ifdef NONE
#ifdef M2
	M0(:, M3) M4
	+ M1
#else
	BX M3 M4 /* one */
#endif
#ifndef M0
	M3 M3 << M1 M1
	M1 M3 /* one */
#else
	-> M0(M4, BX) M4 // a comment
	M4 /* one */
#endif
	M0(M0 (M3 M1,) M1, ) AX
#endif
#ifndef NONE
	R8 + ( M3 )
	M0(R8 MOVQ, ) M3 ( BX ) M1
	8 M2 ( ( M3 ) ) $ // a comment
#else
#ifndef NONE
	: . M2 M0(, M4) $ /* one */
	M0 (( M1 ),) // a comment
#else
	M2 ( M1 ) M2 . BX /* one */
#endif
	( M3 ) M1 ( M1 ) M4 . // a comment
#endif
	M3 M1 M4 M0(: M3, M1 M0 (M4,( << ))) // a comment
#ifdef M0
#ifdef M1
	ADDQ ( M1 ) M1 /* one */
	M2 M4 M2
#endif
#ifdef M2
	R8 M1 M2 // a comment
	M4 // a comment
	ADDQ /* one */
#endif
#else
	M0(, << :) M0(, BX M2)
	M1 M3
#ifdef M2
	8 M1 M1 M2 M4 /* one */
#else
	-> 0x10 M4 . M0(AX, M2 0x10) // a comment
	M1 M0 (( M2 ),) M4 M2 // a comment
	$ M4 M1 ( M3 )
	M4 BX : // a comment
#endif
	M3 // a comment
#endif
#endif
#undef M4
	( << ) -> ( M1 ) : // a comment
#define M5(a) << 8 a
#define M6(a, b, c) R8 : c b a
#define M7(a, b) AX $
#ifndef NONE
	M0 (M6 (M2 M6 (0x10 -,,),M2,( 0x10 )),) ( M7 (AX,) ) ( ( M3 ) ) M7(( M1 ), ) M2
	- . /* one */
#else
	BX M0 (BX,M3 ( M2 ))
#endif
#define M8(a, b) M0 (,b) ( b )
	M0 (BX M2,) M3 << /* one */
#define M9 .
#ifdef M1
	M5()
#ifdef NONE
#ifdef M7
	$ /* one */
	. M0 (,M7 (M5(:) MOVQ,) M2) /* one */
	M3 ( BX ) ADDQ : M7 (. 8,$) /* one */
#else
	M7(, <<) /* one */
#endif
#ifdef M9
	AX M1 M6 (,M8(M1 M0(MOVQ, -> +), M2) M2,M1) 0x10 M7 (,M0(, M7(AX, ->)) M5 (( . ))) /* one */
#endif
#ifndef M7
	( M1 ) ( M7(M1 ., M9 ( BX )) ) M3 8 /* one */
	+ M2 R8 AX ADDQ
	BX + M9 /* one */
	M5 () -> M3 ( + )
#endif
#else
#ifndef NONE
	M6 (:,,M8(, )) M9 MOVQ MOVQ
#else
	0x10 M5 () M0(ADDQ, ( M6(, -> 8, - $) ) M3) M9
	M5() ( R8 )
#endif
#ifndef M2
	- +
#endif
	( M3 ) AX
#endif
#endif
	( ( M1 ) )
	( ADDQ ) M2
#define M10(a) a -
#define M11(a, b) MOVQ ADDQ
#ifndef M2
	8 . M9 M10 () /* one */
	M2 M2 M8(M2, ADDQ) M2
#ifndef M5
	M3 /* one */
#ifdef M8
	M1
	M10 (( -> )) // a comment
#else
	M5 (R8 M2) M10()
#endif
	->
#endif
#else
	BX R8 .
#endif
#define M12 
#define M13() R8 ( M6(BX, , 0x10) ) <<
#undef M13
#define M14(a, b, c) << -> ( ( MOVQ ) ) -> M7 (b,8)
	-> M9
	( M11(, ( BX ) M12) ) AX M6 (M7(( 8 ) M0 (R8 BX,), 0x10 MOVQ) M9,( M7 (,.) ) ( M2 ),M1 M0 (MOVQ,R8 ( - ))) M3 // a comment
#define M15() M14 (,M6 (,,- MOVQ) M6 (,ADDQ ->,<<),M14 (,-,)) 8 8 ( R8 ) M0(M2, ( . ) M9)
#define M16 R8 M11 (,M9)
#define M17(a, b) M10(M14 (a,b ->,<< 0x10) .) M15 ()
	MOVQ M9 R8 MOVQ ->
#define M18(a, b, c) 8
#define M19(a) a \
 a a
	<< M14 (M1 M15 (),M9,) /* one */
	$ M16 << M16 /* one */
#define M20(a, b, c) \
 BX M8(0x10 ( b ), c)
#ifdef M15
#ifdef M6
#ifdef M19
	M9 /* one */
	M5() M17 (M18 (M5 (8),M8 (8 AX,8),AX <<),- -) M7 (->,M8(( + ) ., M19 ()) ( M6 (R8 $,,MOVQ -) )) 8 /* one */
#endif
#ifdef M6
	M2 M3 // a comment
#else
	M14 (,( M17(ADDQ +, ) ),M12 $) /* one */
#endif
	M20(, , M11 (M8(, R8) M0(:, R8),M5 (8 MOVQ) 8) ADDQ) M1 : M8(M11(( - ) <<, ( 8 ) M5 (BX BX)) M2, M16) M0(, M5 ()) // a comment
#else
#ifdef M7
	$ // a comment
#else
	M10() // a comment
	0x10 M18(M17(AX BX, ), MOVQ, M14 (( BX ),-,M8(, ) $))
#endif
#endif
#endif
#define M21(a, b) ( 0x10 ) \
 M2
	M0 (,$ ( : )) // a comment
#define M22(a, b) 
	BX M10(M1 M2) -> M20 (,,<<) M20 (M2 M10(),M19 (),M10(M5($ -)) M0(M14(+ $, R8, R8), ))
	M3 + + 8 /* one */
	MOVQ BX M16 . /* one */
#define M23(a, b, c) << \
 -> ( c ) ( c )
#define M24(a) R8
	M9 M0 (,M9 M18(( - ) $, , M12)) M16 M22 (M19(M16),M21 (M24 (8 R8),M24(+ :)) R8)
#define M25(a) 
	M23 (-> .,M21 (<< ( - ),:),) 8 ( M16 ) R8 // a comment
	8 M19(( M17(: 0x10, - -) ) +) ( M23(->, , M10()) ) // a comment
	<< M11 (,R8) -> // a comment
#define M26(a) a
